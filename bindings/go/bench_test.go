package capvet_test

import (
	"bytes"
	"testing"

	"capvet.invalid/capvet"
)

func BenchmarkScanner(b *testing.B) {
	message := large(11)
	for _, form := range forms {
		b.Run(form.name, func(b *testing.B) {
			stream := bytes.Repeat(form.encode(message), 1000)
			b.ReportAllocs()
			b.ResetTimer()
			for n := 0; n < b.N; {
				s := form.scanner(bytes.NewReader(stream), nil)
				for n < b.N && s.Scan() {
					n++
				}
			}
		})
	}
}

func BenchmarkVet(b *testing.B) {
	message := large(11)
	b.ReportAllocs()
	for n := 0; n < b.N; n++ {
		if _, err := capvet.Vet(message, nil); err != nil {
			b.Fatal(err)
		}
	}
}
