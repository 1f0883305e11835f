package twodfq

import (
	"bytes"
	"errors"
	"io/fs"
	"os"
	"testing"
)

// The header of this module is that of the archive.
func TestHeader(t *testing.T) {
	of, err := os.ReadFile("../c/twodfq.h")
	if errors.Is(err, fs.ErrNotExist) {
		t.Skip("the module stands alone")
	}
	if err != nil {
		t.Fatal(err)
	}
	own, err := os.ReadFile("twodfq.h")
	if err != nil {
		t.Fatal(err)
	}
	if !bytes.Equal(of, own) {
		t.Error("twodfq.h is not ../c/twodfq.h")
	}
}
