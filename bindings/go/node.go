package capvet

// #include "calls.h"
import "C"

import (
	"fmt"
	"unsafe"
)

// Kind is what a node is.
type Kind uint32

// The kinds of node.
const (
	KindNull       Kind = C.CAPVET_KIND_NULL
	KindStruct     Kind = C.CAPVET_KIND_STRUCT
	KindValues     Kind = C.CAPVET_KIND_VALUES   // a list of numbers, bits or bytes; Text and Data are lists of bytes
	KindPointers   Kind = C.CAPVET_KIND_POINTERS // a list of pointers
	KindStructs    Kind = C.CAPVET_KIND_STRUCTS  // a list of structs
	KindCapability Kind = C.CAPVET_KIND_CAPABILITY
)

// String returns a name such as "Struct", or a number for a kind of a later library.
func (k Kind) String() string {
	names := [...]string{"Null", "Struct", "Values", "Pointers", "Structs", "Capability"}
	if int(k) < len(names) {
		return names[k]
	}
	return fmt.Sprintf("Kind(%d)", uint32(k))
}

// MarshalText returns the name of the kind.
func (k Kind) MarshalText() ([]byte, error) {
	return []byte(k.String()), nil
}

// Node is a node of a message. Fields that do not apply to its kind are 0.
type Node struct {
	Kind       Kind
	Element    uint32 // a list: the element's code in the format, 0 to 7
	Count      int    // a list: how many elements
	DataWords  int    // a struct: its data words; a list of structs: those of each element
	Pointers   int    // a struct: its pointers; a list of structs: those of each element
	Capability uint32 // a capability: its index
	Offset     int    // where Data starts in the bytes that were passed
	Data       []byte // data words, values or elements, in place
}

// nodeOf returns a node of the message b.
func nodeOf(raw *C.capvet_node, b []byte) Node {
	end := raw.offset + raw.length
	return Node{
		Kind:       Kind(raw.kind),
		Element:    uint32(raw.element),
		Count:      int(raw.count),
		DataWords:  int(raw.data_words),
		Pointers:   int(raw.pointers),
		Capability: uint32(raw.capability),
		Offset:     int(raw.offset),
		Data:       b[raw.offset:end:end],
	}
}

// Peek returns the node at a path of a message that was not vetted, as Message.Get does of one that was. Only the pointers on
// the path are checked, and what is wrong with another one is not noticed. So a service vets, and then uses Message.Get.
//
// The error is one of Vet, or a *PathError. Pointer of a *Refusal then counts the pointers on the path, and it has no bytes
// and no Path. Limits.Exclusive has no effect.
func Peek(b []byte, path string, l *Limits) (n Node, ok bool, err error) {
	text := []byte(path)
	f := C.capvet_go_get(pointer(b), C.size_t(len(b)), l.raw(whole), (*C.char)(unsafe.Pointer(pointer(text))), C.size_t(len(text)))
	switch f.result.answer {
	case C.CAPVET_OK:
		return nodeOf(&f.node, b), true, nil
	case C.CAPVET_NO_NODE:
		return Node{}, false, nil
	case C.CAPVET_BAD_PATH:
		return Node{}, false, &PathError{Path: path, Offset: int(f.result.report.detail)}
	}
	return Node{}, false, errorOf(&f.result, nil, l.orDefault())
}
