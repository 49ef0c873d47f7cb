// Part of a copy of golang.org/x/text/unicode/bidi that run.sh makes: returns what that package doesn't export, levels
// and an order, with the functions that its own tests call.
package bidi

// Names are the short names of classes.
var Names = map[Class]string{
	L: "L", R: "R", EN: "EN", ES: "ES", ET: "ET", AN: "AN", CS: "CS", B: "B", S: "S", WS: "WS", ON: "ON", BN: "BN",
	NSM: "NSM", AL: "AL", LRO: "LRO", RLO: "RLO", LRE: "LRE", RLE: "RLE", PDF: "PDF", LRI: "LRI", RLI: "RLI",
	FSI: "FSI", PDI: "PDI",
}

// RowOf returns the paragraph's level of a text, the level of each of its characters, and line by line which of them is
// at each place from the left. The direction is 0 left-to-right, 1 right-to-left, 2 found in the text.
func RowOf(text []rune, ends []int, direction int) (int, []int, []int, error) {
	classes := make([]Class, len(text))
	brackets := make([]bracketType, len(text))
	pairs := make([]rune, len(text))
	for i, character := range text {
		// Canonical equivalents are left to the caller (bracket.go).
		switch character {
		case 0x2329:
			character = 0x3008
		case 0x232A:
			character = 0x3009
		}
		properties, _ := LookupRune(character)
		classes[i] = properties.Class()
		if properties.IsOpeningBracket() {
			brackets[i], pairs[i] = bpOpen, character
		} else if properties.IsBracket() {
			brackets[i], pairs[i] = bpClose, properties.reverseBracket(character)
		}
	}
	base := level(direction)
	if direction == 2 {
		base = implicitLevel
	}
	made, err := newParagraph(classes, brackets, pairs, base)
	if err != nil {
		return 0, nil, nil, err
	}
	found := made.getLevels(ends)
	levels := make([]int, len(text))
	for i, one := range found {
		levels[i] = int(one)
	}
	return int(made.embeddingLevel), levels, computeMultilineReordering(found, ends), nil
}
