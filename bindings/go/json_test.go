package capvet_test

import (
	"encoding/json"
	"errors"
	"testing"

	"capvet.invalid/capvet"
)

// asJSON compares the JSON text of a value.
func asJSON(t *testing.T, value any, want string) {
	t.Helper()
	text, err := json.Marshal(value)
	if err != nil || string(text) != want {
		t.Errorf("want %s, got %s, %v", want, text, err)
	}
}

func TestJSON(t *testing.T) {
	asJSON(t, accepted(t, sample("shared.bin")).Report(),
		`{"length":40,"segments":1,"words":4,"charge":4,"depth":2,"pointers":3,"capabilities":0}`)
	asJSON(t, refused(t, framed(1<<48, 1<<34), nil), `{"message":0,"offset":0,"length":24,"verdict":"refused",`+
		`"reason":"OutOfSegment","segment":0,"word":1,"pointer":2,"path":"/p0"}`)
	asJSON(t, refused(t, many(512), nil), `{"message":0,"offset":0,"length":2064,"verdict":"refused","reason":"ManySegments"}`)
	asJSON(t, capvet.DefaultLimits(), `{"message_words":8388608,"charge":8388608,"depth":64,"allow_nonstrict":false,`+
		`"allow_amplified":false,"exclusive":false}`)
	asJSON(t, capvet.KindStruct, `"Struct"`)
	for _, row := range []struct {
		b    []byte
		want string
	}{
		{null[:9], `{"message":0,"offset":0,"verdict":"broken","reason":"Truncated","required":16}`},
		{many(513), `{"message":0,"offset":0,"verdict":"broken","reason":"TooManySegments","segments":513}`},
		{join(null, null), `{"message":0,"offset":0,"length":16,"verdict":"broken","reason":"Trailing","trailing_bytes":16}`},
	} {
		_, err := capvet.Vet(row.b, nil)
		asJSON(t, err, row.want)
	}
	_, err := capvet.VetSegments([][]byte{null[:1]}, nil)
	asJSON(t, err, `{"message":0,"offset":0,"verdict":"broken","reason":"BadSegment","segment":0}`)
	_, err = capvet.Vet(nullPad, &capvet.Limits{})
	asJSON(t, err, `{"message":0,"offset":0,"verdict":"broken","reason":"TooLarge","words":2}`)
	var limits capvet.Limits
	if err := json.Unmarshal([]byte(`{"message_words":9,"exclusive":true}`), &limits); err != nil || limits != (capvet.Limits{MessageWords: 9, Exclusive: true}) {
		t.Error(limits, err)
	}
	var reason capvet.Reason
	if err := json.Unmarshal([]byte(`"Overlap"`), &reason); err != nil || !errors.Is(reason, capvet.ReasonOverlap) {
		t.Error(reason, err)
	}
}
