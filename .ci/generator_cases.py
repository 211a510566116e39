"""Schemas that wire_gen is asked, for .ci/generated: which it refuses and with which words, and what
it writes of others."""
TYPE = "message A { int32 x = 1; }"
LONG = "Elephant" * 11
# Files of google/protobuf that no crate has.
GOOGLE = {
    "venue": 'import "google/protobuf/zone.proto"; import "google/protobuf/any.proto"; '
             "message Venue { Zone zone = 1; Any more = 2; }",
    "zone": "enum Wide { NARROW = 0; } message Zone { string name = 1; }",
}
MANY_OF_FLAT = (".A: more than 80 fields of a message that has a view, or with unknown=drop or "
                "mismatch=keep")
# A schema, further parameters, and what is said of it on protoc's channel for errors.
REFUSED = [
    ("proto3", 'import "report.proto";' + TYPE
     + "service S { rpc Get(A) returns (report.Report); }", "",
     "S.Get: .report.Report is of a file of no crate that is named, as "
     "import=PACKAGE=CRATE does"),
    ("proto2", "enum E { B = 0; } message A { map<int32, E> x = 1; }", ",unknown=drop",
     ".A.x: closed enums are not generated with unknown=drop or mismatch=keep"),
    ("proto3", "message A { A x = 1; int32 y = 2; }", ",mismatch=keep", ".A: a message that holds "
     "itself, or what holds it, has no mismatch=keep"),
    ("proto3", "message A { oneof b { A x = 1; } oneof c { A y = 2; int32 z = 3; } }", "",
     ".A: messages that hold themselves or one another by several oneofs want encoded=FIELD"),
    ("proto3", "message A { oneof b { B x = 1; } oneof c { A y = 2; int32 z = 3; } } "
     "message B { A z = 1; }", "",
     ".A: messages that hold themselves or one another by several oneofs want encoded=FIELD"),
    ("proto3", "message A { B x = 1; } message B { A x = 1; }", ",encoded=A.y",
     ".A.y: encoded= wants a field of messages behind their length"),
    ("proto2", "message A { optional group B = 1 { optional A x = 1; } }", ",encoded=A.b",
     ".A.b: encoded= wants a field of messages behind their length"),
    ("proto2", "message A { extensions 4; } extend A { optional int32 x = 4; }", ",unknown=drop",
     ".x: extensions are not generated with unknown=drop"),
    ("proto3", "message A {" + "".join(f"int32 x{it} = {it};" for it in range(1, 130)) + "}", "",
     ".A: more than 128 fields"),
    *(("proto3", TYPE, f",c=a,{option}", "c=NAME wants unknown=keep and mismatch=refuse, and neither "
       "laws=skip nor split=")
      for option in ("unknown=drop", "mismatch=keep", "laws=skip", "split=2")),
    *(("proto3", TYPE, f",json=true,{option}", "json=true wants unknown=keep and mismatch=refuse, "
       "and neither c=NAME nor split=")
      for option in ("unknown=drop", "mismatch=keep", "split=2", "c=a")),
    ("proto3", TYPE, ",c=new", "c=new: a word of C, or a name of the headers"),
    ("proto3", TYPE, ",c=gtv_shop", "c=gtv_shop: a word of C, or a name of the headers"),
    *(("proto3", "message A {" + "".join(f"int32 x{it} = {it};" for it in range(1, 82)) + "}",
       options, MANY_OF_FLAT) for options in (",views=true", ",unknown=drop", ",mismatch=keep")),
    *(("proto3", "message A { A a = 100; "
       + "".join(f"int32 x{it} = {it};" for it in range(1, 81)) + "}", options, MANY_OF_FLAT)
      for options in (",views=true", ",unknown=drop")),
    ("proto3", 'import "report.proto"; message A { report.Report x = 1; }', "",
     ".A.x: .report.Report is of a file of no crate that is named, as "
     "import=PACKAGE=CRATE does"),
    ("proto3", TYPE, ",crate=shop-messages", "a crate is called by letters, digits and "
     "underscores, no digit first, and by no word of the language: crate=shop-messages"),
    ("proto3", TYPE, ",crate=1shop", "a crate is called by letters, digits and "
     "underscores, no digit first, and by no word of the language: crate=1shop"),
    ("proto3", TYPE, ",crate=std", "a crate is called by letters, digits and "
     "underscores, no digit first, and by no word of the language: crate=std"),
    ("proto3", TYPE, ",import=google.protobuf", "an import is import=PACKAGE=CRATE: "
     "import=google.protobuf"),
    ("proto3", TYPE, ",element=many", "parameters are crate=NAME, import=PACKAGE=CRATE, "
     "element=BYTES, unknown=keep or drop, mismatch=refuse or keep, enums=open, strings=bytes, "
     "required=optional, views=true, services=skip, defaults=skip, laws=skip, split=COUNT, c=NAME, "
     "json=true, json_unknown=skip, json_defaults=write, json_names=schema, json_enums=numbers, "
     "and encoded=FIELD: element=many"),
    ("proto2", TYPE.replace("int32", "optional string"), ",strings=texts",
     "parameters are crate=NAME, import=PACKAGE=CRATE, "
     "element=BYTES, unknown=keep or drop, mismatch=refuse or keep, enums=open, strings=bytes, "
     "required=optional, views=true, services=skip, defaults=skip, laws=skip, split=COUNT, c=NAME, "
     "json=true, json_unknown=skip, json_defaults=write, json_names=schema, json_enums=numbers, "
     "and encoded=FIELD: strings=texts"),
    *(("proto3", TYPE, f",{option}", "json_unknown=skip, json_defaults=write, json_names=schema and "
       "json_enums=numbers want json=true")
      for option in ("json_unknown=skip", "json_defaults=write", "json_names=schema",
                     "json_enums=numbers")),
    ("proto3", TYPE, ",unknown=drop,mismatch=keep", "mismatch=keep wants unknown=keep"),
    ("proto3", TYPE, ",views=true,unknown=drop",
     "views=true wants unknown=keep and mismatch=refuse"),
    ("proto3", TYPE, ",mismatch=keep,views=true",
     "views=true wants unknown=keep and mismatch=refuse"),
    ("proto3", TYPE, ",encoded=inside", "encoded=inside wants c=NAME"),
    ("proto2", "enum E { B = 0; } message A { optional E x = 1; }", ",unknown=drop",
     ".A.x: closed enums are not generated with unknown=drop or mismatch=keep"),
]
# A field of edition 2023 with its features, and what the code or the error has for it; and one
# with a parameter.
INT, MESSAGE, STRING = "type: 5", 'type: 11 type_name: ".A"', "type: 9"
EDITIONS = [
    (1000, INT, "", "Optional<Int32>"),
    (1000, INT, "field_presence: 2", "Implicit<Int32>"),
    (1000, INT, "field_presence: 3", "Needed<Optional<Int32>>"),
    (1000, INT, "field_presence: 3", "Optional<Int32>", "required=optional"),
    (1000, STRING, "", "Optional<Text>"),
    (1000, STRING, "utf8_validation: 2", "Optional<Text>", "strings=bytes"),
    (1000, STRING, "utf8_validation: 3",
     ".C.x: strings that are no UTF-8 want strings=bytes"),
    (1000, STRING, "utf8_validation: 3", "Optional<Blob>", "strings=bytes"),
    (1000, STRING, "utf8_validation: 1", ".C: the feature utf8_validation is not known"),
    (1000, INT, "json_format: 2", ".C: the feature json_format is not known"),
    (1000, INT + " label: 3", "", "Packed<Int32>"),
    (1000, INT + " label: 3", "repeated_field_encoding: 2", "Unpacked<Int32>"),
    (1000, MESSAGE, "", "Embedded<A>"),
    (1000, MESSAGE, "message_encoding: 2", "Group<A>"),
    (1000, 'type: 14 type_name: ".E"', "", "Optional<Enum<E>>"),
    (1001, INT, "", "edition.proto: no syntax or edition that is known"),
]
# How many message types stand within one another, and what is said of it. (protoc takes 31.)
DEEP = [
    (100, ""),
    (101, ".A" * 100 + ": more than 100 message types within one another"),
    (20_000, ".A" * 100 + ": more than 100 message types within one another"),
]
# A schema, further parameters, and parts of the code that is written.
CHOICES = [
    ("proto2", "enum E { Z = 0; } message A { optional A x = 1; } message B { optional E x = 1; } "
     "message C {} message D { optional C x = 1; } message NoField {} "
     "message I { oneof x { A y = 1; } } "
     'message F { optional int32 x = 1 [json_name = "\\""]; }'
     'message H { optional int32 a_b = 1 [json_name = "c"]; }', ",json=true",
     ["- `A`: it holds itself, or others that hold it\n",
      "read_field::<Optional<ClosedNamed<EJson>>>(",
      "read_parts::<NoField<C>>(", "read_field::<Embedded<CJson>>(",
      "- `NoField`: it is called as a type of the library, or as the JSON of another\n",
      "- `I`: `y` is a message that has no JSON\n",
      "- `F`: `x` is of a name in JSON that is empty, or has other signs than those of ASCII\n",
      '    name: "a_b",\n    json_name: "c",\n', "pub use h_json::HJson;\n"]),
    ("proto3", 'import "google/protobuf/struct.proto"; '
     "message A { int32 a_b = 1; optional int32 c = 2; google.protobuf.NullValue d = 3; "
     "oneof e { int32 f = 4; } }", ",json=true,json_defaults=write,json_names=schema",
     ["write_always::<Implicit<i32>>(alloc, out, first, &A_B, &message.a_b)",
      "write_field::<Optional<i32>>(alloc, out, first, &C, &message.c)",
      "write_field::<NullValueJson>(alloc, out, first, &D, &message.d)",
      "write_chosen::<Implicit<i32>>(", "read_parts::<",
      '    name: "aB",\n    json_name: "a_b",\n']),
    ("proto2", "enum E { Z = 0; } message B { optional E x = 1; } message C {}",
     ",json=true,json_enums=numbers,json_unknown=skip",
     ["read_field::<Optional<ClosedNumbered<EJson>>>(", "read_known_parts::<NoField<C>>("]),
    ("proto3", 'import "report.proto"; import "google/protobuf/struct.proto"; '
     'import "google/protobuf/wrappers.proto"; enum WriteError { U = 0; } '
     "message M { WriteError x = 1; } "
     "message N { google.protobuf.NullValue x = 1; } message V { google.protobuf.Value x = 1; } "
     "message W { google.protobuf.Struct x = 1; repeated google.protobuf.ListValue y = 2; } "
     "message BoolValueJson { google.protobuf.BoolValue x = 1; } "
     "message R { repeated report.Report.Sample x = 1; report.Report.Level y = 2; "
     "google.protobuf.Int32Value z = 3; }",
     ",import=report=wire_report,json=true",
     ["- `M`: `x` is of a type that is called as one of the library, or its JSON as another type\n",
      "read_field::<NullValueJson>(", "read_nullable::<Boxed<ValueJson>>(",
      "read_field::<Embedded<StructJson>>(", "read_field::<Repeated<ListValueJson>>(",
      "- `BoolValueJson`: `x` is of a type that is called as one of the library, or its JSON as "
      "another type\n",
      "use wire_report_json::{ReportLevelJson, ReportSampleJson};\n",
      " wire_fields base64 chosen wire_report wire_report_json wire_jsontimes wire_well_known "
      "wire_well_known_json\n"]),
    ("proto2", "enum E { Z = 0; } message A { optional int32 x = 1; optional int32 has_x = 2; } "
     "message B { optional E x = 1; } message C { oneof y { E z = 1; } } message D {} "
     "message F { map<int32, int32> x = 1; } message G { repeated int32 x = 1; } "
     "message H { optional G x = 1; } message I { optional group J = 1 { optional int32 x = 1; } } "
     "message K { repeated string x = 1; } message L { optional K x = 1; } "
     "message Me { optional string register = 1; required double x = 2; } "
     "message MeSize { optional int32 size = 1; }", ",c=a",
     [" * - `A`: `has_x` is called as what there is of another field;",
      " * - `B`: `x` is of a closed enum; enums=open takes its numbers as they are;",
      " * - `C`: `z` is of a closed enum; enums=open takes its numbers as they are;",
      " * - `D`: it has no fields;",
      " * - `H`: `x` is a message that has lists, or no struct; encoded=H.x takes it as bytes, "
      "and encoded=inside all such;",
      " * - `I`: `j` is a group;",
      " * - `L`: `x` is a message that has lists, or no struct; encoded=L.x takes it as bytes, "
      "and encoded=inside all such;",
      " * - `MeSize`: it is called as a call of another;",
      "typedef struct a_fxentry {\n    int32_t key;\n    int32_t value;\n",
      "uint32_t a_f_next_x(gtv_bytes *walk, gtv_bytes *element);",
      "    gtv_bytes register_;\n    bool has_x;\n    double x;\n} a_me;",
      "size_t a_k_size(const a_k *it, const a_k_lists *lists);",
      "uint32_t a_g_next_x(gtv_numbers *walk, int32_t *number);",
      "pub extern \"C\" fn a_k_next_x<'a>("]),
    ("proto2", "enum E { Z = 0; } message A { map<int32, E> x = 1; } "
     "message B { repeated B x = 1; } message D { map<string, B> x = 1; } "
     "message F { oneof y { D z = 1; } }", ",c=a",
     [" * - `A`: `x` is a map of a closed enum; enums=open takes its numbers as they are;",
      " * - `B`: `x` is of messages that have lists, or no struct; "
      "encoded=B.x takes each as bytes, and encoded=inside all such;",
      " * - `D`: `x` is of messages that have lists, or no struct; "
      "encoded=D.x takes each as bytes, and encoded=inside all such;",
      " * - `F`: `z` is a message that has lists, or no struct; encoded=F.z takes it as bytes, "
      "and encoded=inside all such;",
      "    pub x: BTreeMap<i32, EnumValue<E>>,", "    pub x: Vec<DXEntry>,"]),
    ("proto2", "enum E { Z = 0; } message A { map<int32, E> x = 1; } "
     "message B { repeated B x = 1; } message D { map<string, B> x = 1; } "
     "message F { oneof y { D z = 1; } }",
     ",c=a,enums=open,encoded=B.x,encoded=D.x,encoded=F.z",
     ["typedef struct a_fy {\n    uint32_t which;\n    /* Encodings of messages, not looked at: "
      "the calls of their type read and write them. */\n    gtv_bytes z;\n",
      "typedef struct a_dxentry {\n    gtv_bytes key;\n    bool has_value;\n"
      "    gtv_bytes value;\n",
      "uint32_t a_a_next_x(gtv_bytes *walk, gtv_bytes *element);",
      "uint32_t a_d_next_x(gtv_bytes *walk, gtv_bytes *element);"]),
    ("proto3", "message List { repeated int32 x = 1; } message Flat { int32 x = 1; } "
     "message Pair { Pair left = 1; Flat right = 2; List rest = 3; oneof o { List z = 4; } } "
     "message Each { repeated Flat a = 1; repeated List b = 2; map<int32, Each> c = 3; }",
     ",c=a,encoded=inside",
     [" */\n    gtv_bytes left;\n    bool has_right;\n    a_flat right;\n    bool has_rest;\n",
      " */\n    gtv_bytes rest;\n    a_pair_o o;\n} a_pair;",
      "    const a_flat *a;\n    size_t a_len;\n    const gtv_bytes *b;\n    size_t b_len;\n"
      "    const a_each_centry *c;\n",
      "    int32_t key;\n    bool has_value;\n    gtv_bytes value;\n} a_each_centry;"]),
    ("proto2", "enum E { Z = 0; } message A { oneof b { A x = 1; int32 y = 2; } optional E z = 3; "
     "map<int32, E> w = 4; } message C { optional A a = 1; }", "",
     ["            4 => <Map<Int32, Always<Enum<E>>, 56> as ClosedMap>::merge_closed(",
      "            3 => merge_closed(tag, &mut self.z, &mut self.unknown, buf, context),",
      "    leaving_choice a-known a-choice", "a-account [] = entries_left 56 4 (λ n p.",
      "c-account (number ∷ path) =\n    account_where (number == 1) (a-account path)"]),
    ("proto2", "enum E { Z = 0; } message A { oneof b { B x = 1; int32 y = 2; } optional E z = 3; "
     "map<int32, E> w = 4; } message B { optional A a = 1; }", "",
     ["family-account (zero ∷ []) = entries_left 56 4 (λ n p.",
      "family-account ((suc zero) ∷ []) = λ n p. payload_charge p"]),
    ("proto3", "message A { oneof b { A x = 1; int32 y = 2; } }", ",unknown=drop",
     ["    dropping_choice a-known a-choice", "            _ => pass_over(tag, buf, context),"]),
    ("proto3", "message Each { repeated Each list = 1; oneof each { Each e = 2; string s = 3; } } "
     "message Missing { int32 x = 1; } message Choice { oneof b { Choice x = 1; int32 y = 2; } }",
     ",views=true",
     ["fn owned_each_each<'a>(", "fn each_owned_each<'a>(", "pub struct Missing_ {",
      "abbrev pub choice-choice : choices.Choice Choice-Leaf"]),
    ("proto3", "message Band { Player x = 1; } message Player { Band y = 1; } "
     "message BandFamilyView { int32 x = 1; }", ",views=true",
     ["mod band_family_view;", "mod band_family_view_2;"]),
    ("proto3", TYPE + "message Services { int32 x = 1; } service S { rpc Get(A) returns (A); }",
     ",services=skip", ["1 => x: Implicit<Int32>,"]),
    ("proto3", 'import "google/protobuf/empty.proto"; package p;' + TYPE
     + "service T { rpc Name(A) returns (google.protobuf.Empty); rpc getA(stream A) returns (A); "
     "rpc GetA(A) returns (stream A); }", ",import=google.protobuf=wire_well_known",
     ['    pub const NAME: &\'static str = "p.T";', "    pub const NAME_0: wire_fields::Method",
      '        path: "/p.T/getA",\n        request: "p.A",\n        response: "p.A",\n'
      "        is_client_streaming: true,\n        is_server_streaming: false,\n",
      "[wire_fields::Method; 3] = [T::NAME_0, T::GET_A, T::GET_A_2];", "pub struct TGetA2;",
      "    type Response = wire_well_known::Empty;", "pub mod services;"]),
    ("proto2", "message A { required int32 x = 1; optional bytes y = 2 [default = 'a']; }",
     ",required=optional,defaults=skip,laws=skip",
     ["1 => x: Optional<Int32>,", "2 => y: Optional<Blob>,"]),
    ("proto2", "message A { required int32 x = 1; required E type = 2; } enum E { F = 0; } "
     "message Bag { repeated A a = 1; map<sint64, A> b = 2; oneof o { A c = 3; int32 d = 4; } "
     "required group G = 5 { optional bool x = 1; } optional C c_2 = 6; } "
     "message C { optional int32 x = 1; }", "",
     ['"x" => x: Needed<Optional<Int32>>,', '"type" => type_: NeededValue<EnumValue<E>>,',
      "impl Required for A {", "impl Required for Bag {", '"a" => a: EachEmbedded<A, 56>,',
      '"b" => b: Map<Sint64, AlwaysEmbedded<A>, 96>,', '"o" => o: BagOKind,',
      'Some(BagO::C(message)) => missing_in(alloc, "c", message),',
      "Some(BagO::D(_)) => Ok(None),", '"g" => g: Needed<Group<BagG>>,\n        )',
      "chosen: wire_codec wire_fields wire_required bytes",
      'within_entries (codes "b") int_key a-missing (b-of-bag m)',
      'needs (codes "type") (type_-of-a m)']),
    ("proto2", "message A { " + " ".join(f"required bool x{it} = {it};" for it in range(1, 13))
     + " }", "",
     ["..ARequired1To7,\n            ..ARequired8To12,\n        )", "struct ARequired1To7;",
      "a-missing-1-to-7 m\n    ∷ a-missing-8-to-12 m\n    ∷ [])"]),
    ("proto2", "message A { " + "".join(f"required bool x{it} = {it};" for it in (1, 82))
     + "".join(f"optional int32 x{it} = {it};" for it in range(2, 82)) + " }", "",
     ["            _ => self.merge_from_65(alloc, tag, buf, context),", "impl Required for A {",
      '"x1" => x1: Needed<Optional<Bool>>,\n            "x82" => x82: Needed<Optional<Bool>>,']),
    ("proto2", "message A { required int32 x = 1; optional A y = 2; }", ",required=optional",
     ["    pub x: Option<i32>,", "chosen: wire_codec wire_fields bytes"]),
    ("proto2", "message A { required int32 x = 1; optional A y = 2; required B z = 3; } "
     "message B { required bool x = 1; }", "",
     ['"x" => x: Needed<Optional<Int32>>,', '        RowRequirement::Once("y")\n',
      '"z" => z: Needed<Embedded<B_>>,\n                "z" => z: Embedded<B_>,\n            ),',
      "slice_missing(Alone(from_ref(self)), 0, alloc)", "impl RequiredAlone for A {",
      'a-asked-row i = nested.once (codes "y")', "a-asked-run (suc i) l =",
      'within (codes "z") b_-missing l.0.1', "chosen: wire_codec wire_fields wire_required bytes"]),
    ("proto2", "message B { required int32 x = 1; } message A { required B b = 1; "
     "oneof o { C c = 2; B d = 3; int32 e = 4; } } message C { repeated group A = 1 "
     "{ optional .A a = 2; } map<int32, A> as = 3; optional int32 x = 4; } "
     "message D { optional C c = 1; }", "",
     ['            0 => RowRequirement::Each("a"),\n            1 => RowRequirement::Each("as"),',
      "            Some(AO::D(message)) => missing_in(alloc, \"d\", message),",
      "            Some(AO::C(_)) => Ok(None),", "struct AORequired3To4;",
      '"o" => o: AORequired3To4,', "ao-missing (Some (inl x)) = in_message (codes \"d\")",
      "a-missing = family.family-missing family.A-Sort",
      "impl<'a> RequiredSlice for FamilySlice<'a> {",
      'within (codes "c") c-missing (c-of-d m)', '"c" => c: Embedded<C>,']),
    ("proto2", "message A { optional A y = 2; " + " ".join(
        f"required bool x{it} = {it};" for it in range(3, 15)) + " }", "",
     ["..ARequired3To9,\n                ..ARequired10To14,\n            ),",
      "a-asked-3-to-9 l\n    ∷ a-asked-10-to-14 l\n    ∷ [])",
      "ghost view = { λ m. leaf_of (a-value m) };"]),
    ("proto2", r"""enum E { option allow_alias = true; LOW = 0; e = 0; }
     message A { optional E x = 1 [default = e]; optional float y = 2 [default = 1e-45];
     optional double z = 3 [default = nan]; optional bytes b = 4 [default = "\1\'"];
     repeated int32 c = 6; optional string s = 7 [default = "\377"]; }""",
     ",strings=bytes",
     ["    pub fn x_or_default(&self) -> EnumValue<E>\n"
      "        ensures { result ≡ or_else (Known e.Low) self.now.x }",
      "            None => EnumValue::Known(E::Low),", "FloatBits { bits: 1 }",
      "bits: 9221120237041090560,", 'b"\\x01\'"', "(1 ∷ 39 ∷ [])", 'b"\\xff"',
      "ensures { result.now ≡ or_else (255 ∷ []) (option_map (λ b. b.items) self.now.s) }"]),
    ("proto2", "enum E { LOW = 0; HIGH = 1; } message A { oneof o { int32 x = 1 [default = 7]; "
     "E y = 2 [default = HIGH]; string z = 3 [default = 'a']; bool w = 4; } }", "",
     ["ensures { result ≡ or_else (pos 7) (x-of-ao-as (ao-of self.now.o)) }",
      "            Some(AO::X(value)) => *value,\n            _ => 7,\n",
      "            _ => EnumValue::Known(E::High),", "use crate::e::E;",
      "            Some(AO::Z(value)) => value,\n            _ => \"a\",\n"]),
    ("proto3", "enum E { option allow_alias = true; LOW = 0; Least = 0; HIGH = 1; }" + TYPE, "",
     ["pub enum E {\n    Low = 0,\n    High = 1,\n}", "pub const LEAST: E = E::Low;"]),
    ("proto3", 'import "google/protobuf/duration.proto";'
     "message A { google.protobuf.Duration x = 1; }", "",
     ["use wire_well_known::Duration;", "chosen: wire_codec wire_fields wire_well_known bytes"]),
    ("proto3", 'import "google/protobuf/duration.proto"; import "google/protobuf/empty.proto";'
     "message A { google.protobuf.Duration x = 1; google.protobuf.Empty y = 2; }",
     ",import=google/protobuf/duration.proto=other_times",
     ["chosen: wire_codec wire_fields other_times wire_well_known bytes"]),
    ("proto3", 'import "google/protobuf/venue.proto"; message A { google.protobuf.Venue x = 1; }',
     "", ["pub use venue::Venue;", "pub use zone::Zone;", "pub use wide::Wide;",
          "use wire_well_known::Any;", "chosen: wire_codec wire_fields wire_well_known bytes",
          "        google/protobuf/venue.proto \\\n        google/protobuf/zone.proto\n"]),
    ("proto3", 'import "google/protobuf/zone.proto"; message A { google.protobuf.Wide x = 1; }',
     "", ["pub use zone::Zone;", "pub use wide::Wide;"]),
    ("proto3", 'import "google/protobuf/venue.proto"; message A { google.protobuf.Venue x = 1; }',
     ",import=google/protobuf/venue.proto=places", ["use places::Venue;"]),
    ("proto3", "message A { A a = 100; "
     + "".join(f"int32 x{it} = {it};" for it in range(1, 70)) + "}", "",
     ["    fn merge_leaf_from_33<B: Buf>(",
      "            _ => self.merge_leaf_from_65(alloc, tag, buf, context),\n",
      "abbrev pub a-fields-1-to-32 : Shape "]),
    ("proto3", 'import "google/protobuf/duration.proto"; import "google/protobuf/empty.proto";'
     "message A { google.protobuf.Duration x = 1; google.protobuf.Empty y = 2; }",
     ",import=google/protobuf/duration.proto=wire_well_known"
     ",import=google/protobuf/empty.proto=wire_well_known",
     ["chosen: wire_codec wire_fields wire_well_known bytes"]),
    ("proto3", TYPE + "message B { repeated A a = 1; repeated string b = 2; "
     "map<string, string> c = 3; }", ",element=100",
     ["EachEmbedded<A, 100>", "Repeated<Text, 100>", "Map<Text, Always<Text>, 100>"]),
    ("proto2", "enum E { B = 0; } message A { oneof o { E x = 1; } map<int32, E> y = 2; }",
     ",enums=open", ["X(EnumValue<E>)", "Map<Int32, Always<Enum<E>>, 56>"]),
    ("proto2", "enum E { B = 0; } message A { oneof o { E x = 1; int32 y = 2; } }", "",
     ["1 [set_or_keep_x] | 2 => o: AOKind,", "pub(crate) fn set_or_keep_x<"]),
    ("proto3", "message A { map<int32, B> x = 1; B z = 2; } "
     "message B { repeated A x = 1; A y = 2; }", ",encoded=A.x,encoded=A.z",
     ["Map<Int32, Always<Blob>, 64>", "2 => z: Optional<Blob>,", "EachEmbedded<A", "Embedded<A>"]),
    ("proto2", "message A { optional string a = 1; repeated string b = 2; "
     "map<string, string> c = 3; oneof o { string d = 4; } }", ",strings=bytes",
     ["Optional<Blob>", "Repeated<Blob, 24>", "Map<Text, Always<Blob>, 72>", "D(Vec<u8>)"]),
    ("proto2", "message A { optional string a = 1; }", "", ["Optional<Text>"]),
    ("proto3", "message A { string a = 1; }", ",strings=bytes", ["Implicit<Text>"]),
    # Messages that hold themselves beside nothing, beside more than eight fields, and in oneofs.
    ("proto3", "message A { A x = 1; }", "",
     ["abbrev pub A-Known : Type 0\nA-Known =\n    ⊤\n", "        keep(alloc, tag"]),
    ("proto3", "message A { " + "".join(f"int32 x{it} = {it}; " for it in range(1, 10))
     + "A y = 10; }", "", ["struct AFields1To8<'a> {", "(fields_1_to_8, field_9).len(cache)"]),
    ("proto3", "message A { oneof b { A x = 1; int32 y = 2; } int32 z = 3; }", "",
     ["    X(Box<A>),\n    Y(i32),\n", "#[cycle(a)]", "Some(AB::X(message)) => from_ref(message)"]),
    ("proto3", "message L { int32 x = 1; } message A { oneof b { A x = 1; L y = 2; } }", "",
     ["    X(Box<A>),\n    Y(L),\n", "use crate::l::L;", "        Some(AB::Y(value)) => value,\n",
      "        Some(AB::X(_)) => <AlwaysEmbedded<L> as Kind>::empty(alloc),\n"]),
    ("proto3", "message A { oneof b { B x = 1; int32 y = 2; } } message B { A z = 1; }", "",
     ["    X(Box<B_>),\n    Y(i32),\n", "#[cycle(a_family)]",
      "Some(AB::X(message)) => FamilySlice::B_(from_ref(message)),"]),
    # A default value of a string that is no UTF-8.
    ("proto2", r'message A { optional string x = 1 [default = "\377"]; }', "",
     ["pub fn x_or_default(&self) -> &[u8]", "Some(value) => value.as_bytes(),"]),
    ("proto2", "message A { oneof b { A x = 1; int32 y = 2 [default = 7]; } }", "",
     ["            (or_else ab-none\n            (option_map ab-value (out-A self.now).b)).0) }",
      "            Some(AB::Y(value)) => *value,\n            Some(AB::X(_)) => 7,\n"
      "            None => 7,\n"]),
    ("proto2", 'message A { extensions 4 to 9; } extend A { optional string x = 4 [default = "a"]; '
     "optional int32 y = 5; optional float z = 6 [default = 1]; }", "",
     ["pub fn x_default() -> &'static str\n    ensures { result.now ≡ (codes \"a\") }\n{\n    \"a\"\n}",
      "        None => unreachable!(),\n    }\n}\n\n/// The extension `.z` of `.A`.\n",
      "pub fn z_default() -> FloatBits\n"]),
    # Names that the code has for type parameters, and comments with what documentation can't have.
    ("proto2", "enum B { LOW = 0; } message S { optional B b = 1; } "
     "message A { optional S s = 1; }", "",
     ["pub enum B_ {", "pub struct S_ {", "pub b: Option<EnumValue<B_>>,", "Embedded<S_>"]),
    ("proto3", "message A { oneof o { int32 b = 1; string s = 2; } }", "",
     ["    B(i32),\n    S(String),\n"]),
    # Names that come together.
    ("proto2", "enum E { option allow_alias = true; FOO_BAR = 0; foo_bar = 1; FooBar = 2; B1 = 3; "
     "b1 = 3; } message A { optional int32 fooBar = 9; optional int32 foo_bar_2 = 1; "
     "optional E foo_bar = 2 [default = foo_bar]; oneof o { bool Foo_Bar = 3; bool x_y = 4; "
     "bool x__y = 5; } }", "",
     ["    FooBar = 0,\n    FooBar_2 = 1,\n    Foobar = 2,\n    B1 = 3,\n", "pub const B1_2: E = E::B1;",
      "    pub foo_bar_3: Option<EnumValue<E>>,", "    pub foo_bar: Option<i32>,",
      "    pub foo_bar_2: Option<i32>,", "            None => EnumValue::Known(E::FooBar_2),",
      "    FooBar4(bool),\n    XY(bool),\n    XY_5(bool),\n"]),
    # Types whose names come together, within one another, of several sorts, and but for capitals;
    # what stands further behind leaves the names before it.
    ("proto3", "message A { message B { int32 x = 1; } } message AB { int32 x = 1; }", "",
     ["/// The message `AB`.\n", "/// The message `AB_2`.\n", "pub struct AB_2 {",
      "mod ab;\nmod ab_2;\n", 'const FULL_NAME: &\'static str = "AB";', "pub use ab_2::AB_2;", "ab_2-range",
      "pub fn ab_2_reads_back()"]),
    ("proto3", "enum A_B { Z = 0; Q = 1; } message A { B b = 1; A_B c = 2; oneof d { C e = 3; } "
     "message B { int32 x = 1; } } message A_D { int32 x = 1; } message C { int32 x = 1; }", "",
     ["pub enum AB {", "pub struct AB_2 {", "1 => b: Embedded<AB_2>,",
      "2 => c: Implicit<Enum<AB>>,", "pub enum AD {", "pub struct ADKind;", "pub struct AD_2 {"]),
    ("proto3", "message HTTPServer { HttpServer x = 1; Httpserver y = 2; } "
     "message HttpServer { int32 x = 1; } message Httpserver { int32 x = 1; }", "",
     ["pub struct HTTPServer {", "pub x: Option<Box<HttpServer_2>>,",
      "pub y: Option<Box<Httpserver_3>>,", "mod httpserver;\nmod httpserver_3;\n",
      "mod http_server_2;"]),
    ("proto3", TYPE + "message AStays { int32 x = 1; } message BOX { int32 x = 1; } "
     "message Box { int32 x = 1; }", "",
     ["pub struct AStays_ {", "pub struct BOX {", "pub struct Box__2 {"]),
    # What is made of a type beside it, and what is called as that.
    ("proto3", "message A { enum BKind { Z = 0; } BKind b_kind = 1; oneof b { int32 c = 2; } "
     "message BKindKind { A x = 1; A y = 2; } }", "",
     ["pub enum ABKind {", "pub struct ABKind_2;", "2 => b: ABKind_2,",
      "impl Kind for ABKind_2 {"]),
    ("proto3", "message A { B b = 1; int32 x = 2; } message B { A a = 1; int32 x = 2; } "
     "message AFamily { int32 x = 1; }", "",
     ["pub struct AFamily {", "mod a_family_2;\nmod afamily;\n", "pub mod AFamily_2\n",
      "#[cycle(a_family_2)]"]),
    ("proto3", TYPE + "service T { rpc GetA(A) returns (A); rpc Geta(A) returns (A); } "
     "service TGetA { rpc get_a_2(A) returns (A); rpc getA(A) returns (A); "
     "rpc GetA(A) returns (A); }", "",
     ["/// The service `TGetA`.\npub struct TGetA_3;", "ServiceMethod for TGetA {",
      "pub struct TGeta_2;", "    const METHOD: wire_fields::Method = T::GETA;",
      "TGetA_3::GET_A_2,", "TGetA_3::GET_A_2_2,"]),
    ("proto3", TYPE + "message Services { int32 x = 1; } service S { rpc Get(A) returns (A); }",
     "", ["mod services_;\n", "pub mod services;\n", "pub use services_::Services;"]),
    ("proto2", "message A { extensions 4 to 9; } extend A { optional bool fooBar = 4; } "
     "extend A { optional bool foo_bar = 5; }", "",
     ["pub fn foo_bar() -> Extension<Optional<Bool>>\n    ensures { result.number ≡ 4 }",
      "pub fn foo_bar_2() -> Extension<Optional<Bool>>\n    ensures { result.number ≡ 5 }"]),
    # A field and a oneof.
    ("proto3", "message A { oneof foo_bar { int32 x = 1; } int32 fooBar = 2; "
     "oneof y { int32 Y = 3; } oneof FooBar { int32 z = 4; } }", "",
     ["1 => foo_bar: AFooBarKind,", "2 => foo_bar_2: Implicit<Int32>,", "3 => y: AYKind,",
      "4 => foo_bar_3: AFooBar_2Kind,", "    Y(i32),\n"]),
    # Lines that have no room for a name.
    ("proto3", "message A { %s x = 1; } message %s { int32 x = 1; }" % (LONG, LONG), "",
     [f"    pub x: Option<\n        Box<\n            {LONG},\n        >,\n    >,\n",
      f"impl MessageName\n    for {LONG} {{\n",
      f"    const FULL_NAME: &'static str =\n        \"{LONG}\";\n",
      f"    fn clone(\n        &self,\n    ) -> Result<\n        {LONG},\n        AllocError,\n    > {{\n"
      f"        Ok(\n            {LONG} {{\n                x: self.x,\n",
      f"        rows!(empty(\n            {LONG},\n            alloc\n        ))\n"]),
    # Names that no letter begins.
    ("proto2", "enum _ { _0 = 0; } message _1 { optional int32 _ = 1; optional _ __ = 2; "
     "oneof _o { bool _2 = 3; } }", "",
     ["pub enum X {\n    X0 = 0,\n}", "pub struct X1 {", "    pub x_: Option<i32>,",
      "    pub x__: Option<EnumValue<X>>,", "X2(bool),"]),
    # Views.
    ("proto2", "enum E { F = 0; } message A { optional E e = 1; optional bytes AView = 2; } "
     "message AView { repeated A a = 1; oneof b { string c = 2; fixed32 d = 3; } } "
     "message B { map<int64, A> a = 1; } message G { repeated E e = 1; } "
     "message K { map<string, E> f = 1; } message L { repeated L l = 1; } "
     "message N { optional O o = 1; } message O { repeated N n = 1; optional bool x = 2; } "
     "message I { oneof h { I i = 1; bool e = 2; } } message J { map<string, I> i = 1; }", ",views=true",
     ["            [0] 1 [closed] => e: CopiedIn<&'a [u8], Optional<Enum<E>>>,\n"
      "            [1] 2 => aview: OptionalIn<BytesIn<'a>>,\n            _ [2] => unknown\n",
      "impl<'a> WrittenView for AView_2<'a> {", "impl<'a> WrittenView for AViewView<'a> {",
      "pub struct AView_2<'a> {", "pub use aview_2::AView_2;", "pub struct AViewView<'a> {",
      "            [0] 1 => a: EachEmbeddedIn<AView_2<'a>, 64>,\n            [1] 2 | 3 => b: ",
      "            [0] 1 => a: EmbeddedMapIn<NumberIn<&'a [u8], Int64>, AView_2<'a>, 104>,\n",
      "            [0] 1 [closed_each] => e: UnpackedIn<&'a [u8], Enum<E>>,\n",
      "            [0] 1 [closed_map] => f: ClosedMapIn<TextIn<'a>, E, ",
      "impl<'a> RecursiveHeld<&'a [u8]> for LView<'a> {",
      "impl<'a> RecursiveView<FamilyView<'a>> for NView<'a> {",
      "impl<'a> RecursiveView<FamilyView<'a>> for OView<'a> {",
      "impl<'a> RecursiveHeld<&'a [u8]> for IView<'a> {",
      "                    Some(IHView::I(message)) => Box::into_inner(message),\n",
      "            [0] 1 => i: EmbeddedMapIn<TextIn<'a>, IView<'a>, 96>,\n",
      "wire_codec wire_fields wire_views bytes"]),
    # Of types of another crate, and of such as have names that generated modules bring in.
    ("proto3", "import \"google/protobuf/struct.proto\"; import \"google/protobuf/any.proto\"; "
     "message Message { google.protobuf.Value a = 1; repeated google.protobuf.Any b = 2; "
     "oneof c { google.protobuf.ListValue d = 3; string e = 4; } } message Family { Place p = 1; } "
     "message Place { Family f = 1; oneof parts { Place next = 2; } }",
     ",views=true,import=google.protobuf=wire_well_known",
     ["pub struct MessageView_<'a> {", "use wire_well_known::{AnyView, ValueView};",
      "    pub a: Option<Box<ValueView<'a>>>,\n", "pub struct FamilyView_<'a> {",
      "pub struct Place_ {", "pub enum PlacePartsView<'a> {\n    Next(Box<PlaceView<'a>>),\n}\n"]),
    # Packed numbers in views: those of four or eight bytes each stay where they are read.
    ("proto3", "enum E { F = 0; } message FixedList { repeated sfixed64 a = 1; "
     "repeated double b = 2; repeated E c = 3; repeated fixed32 d = 4 [packed = false]; "
     "repeated bool e = 5; }", ",views=true",
     ["    pub a: FixedList<'a, Sfixed64>,\n    pub b: FixedList<'a, Double>,\n"
      "    pub c: Vec<EnumValue<E>>,\n    pub d: Vec<u32>,\n    pub e: Vec<bool>,\n",
      "            [0] 1 => a: FixedIn<'a, Sfixed64>,\n"
      "            [1] 2 => b: FixedIn<'a, Double>,\n"
      "            [2] 3 => c: PackedIn<&'a [u8], Enum<E>>,\n"
      "            [3] 4 => d: UnpackedIn<&'a [u8], Fixed32>,\n"
      "            [4] 5 => e: PackedIn<&'a [u8], Bool>,\n",
      "list_values Fixed64 sfixed64 m.a", "list_values Fixed64 double m.b",
      "pub struct FixedList_ {"]),
    ("proto3", "\n\n// a\tb\u2028c\u202ed\u200f\x01e\r\n// f\t\r\n" + TYPE, "",
     ["/// a    b cde\n/// f\n#[derive"]),
]
# A schema that is split into crates of two message types, with the line of crates.txt of each, and
# the types that it has.
SPLIT = """enum Kind { KIND_NONE = 0; } enum Unused { UNUSED_NONE = 0; }
message A { int32 a = 1; Kind kind = 2; }
message B { A a = 1; repeated C c = 2; string name = 3; }
message C { bytes x = 1; D d = 2; }
message D { int32 y = 1; Kind kind = 2; oneof z { A za = 3; int64 zb = 4; } }
message E { map<string, B> bs = 1; E e = 2; int32 depth = 3; }
message F { G g = 1; int32 f = 2; }
message G { F f = 1; int32 g = 2; }
service S { rpc Place(B) returns (E); }"""
PARTS = {
    "split_1: wire_codec wire_fields bytes": ["F", "G", "Unused"],
    "split_2: wire_codec wire_fields bytes": ["A", "D", "DZ", "Kind_"],
    "split_3: wire_codec wire_fields split_2 bytes": ["B_", "C"],
    "split_4: wire_codec wire_fields split_3 bytes": ["E"],
    "split: wire_codec wire_fields split_1 split_2 split_3 split_4 bytes": [],
}
