// golang.org/x/text/unicode/bidi: rows of texts, or the classes, as rows.h says; `--version` prints which tables it
// has.
package main

import (
	"bufio"
	"fmt"
	"os"
	"strconv"
	"strings"

	"golang.org/x/text/unicode/bidi"
)

// shown writes the items of lines that end there.
func shown(items []int, ends []int) string {
	lines, start := []string{}, 0
	for _, end := range ends {
		lines = append(lines, strings.Trim(fmt.Sprint(items[start:end]), "[]"))
		start = end
	}
	return strings.Join(lines, " | ")
}

// rowOf returns the row's last three fields.
func rowOf(text []rune, ends []int, direction int) (row string) {
	defer func() {
		if recover() != nil {
			row = "failed"
		}
	}()
	paragraph, levels, order, err := bidi.RowOf(text, ends, direction)
	if err != nil {
		return "failed"
	}
	return fmt.Sprintf("%d;%s;%s", paragraph, shown(levels, ends), shown(order, ends))
}

// nameOf returns the short name of a code point's class, or a hyphen if it is no character.
func nameOf(code rune) string {
	properties, size := bidi.LookupRune(code)
	if size == 0 || 0xD800 <= code && code <= 0xDFFF {
		return "-"
	}
	return bidi.Names[properties.Class()]
}

func writeClasses(out *bufio.Writer) {
	first := rune(0)
	for end := rune(1); end <= 0x110000; end++ {
		if end == 0x110000 || nameOf(end) != nameOf(first) {
			fmt.Fprintf(out, "%04X..%04X;%s\n", first, end-1, nameOf(first))
			first = end
		}
	}
}

func writeRows(out *bufio.Writer) {
	in := bufio.NewScanner(os.Stdin)
	in.Buffer(nil, 1<<20)
	for in.Scan() {
		line := in.Text()
		if line == "" || line[0] == '#' {
			continue
		}
		fields := strings.Split(line, ";")
		text, ends := []rune{}, []int{}
		for _, item := range strings.Fields(fields[0]) {
			if item == "|" {
				ends = append(ends, len(text))
				continue
			}
			code, err := strconv.ParseInt(item, 16, 32)
			if err != nil {
				os.Exit(2)
			}
			text = append(text, rune(code))
		}
		direction := int(fields[1][0] - '0')
		fmt.Fprintf(out, "%s;%d;%s\n", fields[0], direction, rowOf(text, append(ends, len(text)), direction))
	}
}

func main() {
	out := bufio.NewWriter(os.Stdout)
	defer out.Flush()
	switch strings.Join(os.Args[1:], " ") {
	case "--version":
		fmt.Fprintln(out, "golang.org/x/text/unicode/bidi, tables of Unicode", bidi.UnicodeVersion)
	case "--classes":
		writeClasses(out)
	default:
		writeRows(out)
	}
}
