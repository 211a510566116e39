
T
floats.protofloats"4
Floats
wide (Rwide
narrow (Rnarrowbproto3