// Laid over the tests of Go's protocol buffers library, beside its tables: writes what they ask of
// which type, and judges what was answered of it.
package proto_test

import (
	"bufio"
	"encoding/hex"
	"fmt"
	"os"
	"strings"
	"testing"

	"google.golang.org/protobuf/proto"
)

// A line a row and type: the row, the type, whether it lacks required fields, whether unknown fields
// are dropped, the bytes, and what the row is of.
func TestAsked(t *testing.T) {
	asked, err := os.Create(os.Getenv("ASKED"))
	if err != nil {
		t.Fatal(err)
	}
	defer asked.Close()
	for name, table := range tables() {
		for place, row := range table {
			for type_, message := range row.decodeTo {
				full := message.ProtoReflect().Descriptor().FullName()
				fmt.Fprintf(asked, "%s.%d.%d\t%s\t%v\t%v\t%x\t%s\n", name, place, type_, full,
					row.partial, row.unmarshalOptions.DiscardUnknown, row.wire, row.desc)
			}
		}
	}
}

// A line a row and type of those that were taken: the row and the bytes that were written of it.
// What is not the row's message is written on a line.
func TestAnswered(t *testing.T) {
	answered, err := os.Open(os.Getenv("ANSWERED"))
	if err != nil {
		t.Fatal(err)
	}
	lines := bufio.NewScanner(answered)
	lines.Buffer(nil, 1<<24)
	for lines.Scan() {
		key, digits, _ := strings.Cut(lines.Text(), "\t")
		var name string
		var place, type_ int
		fmt.Sscanf(strings.ReplaceAll(key, ".", " "), "%s %d %d", &name, &place, &type_)
		wanted := tables()[name][place].decodeTo[type_]
		bytes, err := hex.DecodeString(digits)
		if err != nil {
			t.Fatal(err)
		}
		got := wanted.ProtoReflect().Type().New().Interface()
		err = proto.UnmarshalOptions{AllowPartial: true}.Unmarshal(bytes, got)
		// (a wanted message that is none is that of no fields)
		isNone := !wanted.ProtoReflect().IsValid()
		if err != nil || !isNone && !proto.Equal(got, wanted) {
			fmt.Printf("astray\t%s\n", key)
		}
	}
}

func tables() map[string][]testProto {
	return map[string][]testProto{"valid": testValidMessages, "invalid": testInvalidMessages}
}
