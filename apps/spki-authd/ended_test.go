package main

// Tests of the file of ended certificates, which an operator has ended before their time. Each line has the SHA-256 digest of one, a comment, both,
// or nothing. The last line, which withLastLine adds, is `end COUNT DIGEST`: the number of digests, and the digest of the lines before it.

import (
	"os"
	"strings"
	"testing"
)

const (
	// Two digests of certificates that do not exist.
	oneDigest   = "0a0a0a0a0a0a0a0a0a0a0a0a0a0a0a0a0a0a0a0a0a0a0a0a0a0a0a0a0a0a0a0a"
	otherDigest = "ffffffffffffffffffffffffffffffffffffffffffffffffffffffffffffffff"
	// The SHA-256 digest of no octets, and that of a line with oneDigest and its line feed, as sha256sum prints them.
	digestOfNothing = "e3b0c44298fc1c149afbf4c8996fb92427ae41e4649b934ca495991b7852b855"
	digestOfOneLine = "71e6362df11a023066db92cd17270d94cea7a9664d1757bd041464d2d3a03002"
)

// TestRightEnded reads right files of ended certificates, and compares how many lines of each have a digest.
func TestRightEnded(t *testing.T) {
	for text, wanted := range map[string]int{
		"end 0 " + digestOfNothing + "\n": 0, oneDigest + "\nend 1 " + digestOfOneLine + "\n": 1, withLastLine("# ended early\n\n" + oneDigest + "\n" + otherDigest + " # Carol's, stolen\n" + oneDigest + "\n"): 3,
		withLastLine(oneDigest + " # # see sha256 of the release\n"): 1, withLastLine("#\n"): 0, withLastLine("\n\n"): 0,
	} {
		if ended, err := parseEnded([]byte(text)); err != nil || ended.count != wanted {
			t.Errorf("%q: %v, %v", text, ended, err)
		}
	}
}

// TestWrongEnded reads files of ended certificates that are cut, changed or wrong: each is refused.
func TestWrongEnded(t *testing.T) {
	whole := withLastLine(oneDigest + "\n" + otherDigest + "\n")
	for name, text := range map[string]string{
		"empty": "", "no last line": oneDigest + "\n", "cut": whole[:len(oneDigest+"\n")], "cut in the last line": whole[:len(whole)-9], "no line feed": whole[:len(whole)-1],
		"a line more": whole + oneDigest + "\n", "a line before": oneDigest + "\n" + whole, "an empty line more": whole + "\n",
		"twice": whole + whole, "another number": strings.Replace(whole, "end 2", "end 3", 1), "zeros": strings.Replace(whole, "end 2", "end 02", 1),
		"another digest": strings.Replace(whole, otherDigest, oneDigest, 1), "a large letter": withLastLine(strings.ToUpper(otherDigest) + "\n"),
		"short": withLastLine(oneDigest[1:] + "\n"), "long": withLastLine(oneDigest + "0a\n"), "two in a line": withLastLine(oneDigest + " " + otherDigest + "\n"),
		"a text": withLastLine("sha256 of the release\n"), "behind a text": withLastLine("sha256 " + oneDigest + "\n"), "a space before": withLastLine(" " + oneDigest + "\n"),
		"no space before #": withLastLine(oneDigest + "# x\n"), "no space behind #": withLastLine(oneDigest + " #x\n"),
		"a carriage return": withLastLine(oneDigest + "\r\n"), "spaces": withLastLine("  \n"),
	} {
		if _, err := parseEnded([]byte(text)); err == nil {
			t.Errorf("%s: %.200q is read", name, text)
		}
	}
	if _, err := parseEnded(nil); err == nil || !strings.Contains(err.Error(), "spki-cert end --ended") {
		t.Error(err)
	}
}

// TestFewerEnded reads files of ended certificates one after the other: what has ended stays so, unless allowFewerEnded is true. `isRight` says that
// the file is accepted, and `isBobsEnded` that Bob's certificate has ended after that, so that his request is denied.
func TestFewerEnded(t *testing.T) {
	s := newSite(t, "")
	s.config.Ended = writeFile(t, "ended", withLastLine(digestOfText(s.toBob)+"\n"))
	for _, row := range []struct {
		lines           string
		allowFewerEnded bool
		isRight         bool
		isBobsEnded     bool
		name            string
	}{
		{digestOfText(s.toBob) + "\n", false, true, true, "the first"}, {"", false, false, true, "none"},
		{digestOfText(s.toCarol) + "\n", false, false, true, "another one"},
		{digestOfText(s.toCarol) + "\n" + digestOfText(s.toBob) + "\n", false, true, true, "one more"},
		{digestOfText(s.toCarol) + "\n", true, true, false, "one fewer, as wanted"}, {"", false, false, false, "none, later"},
	} {
		if err := os.WriteFile(s.config.Ended, []byte(withLastLine(row.lines)), 0o600); err != nil {
			t.Fatal(err)
		}
		err := s.keeper.reload(s.config, row.allowFewerEnded, s.now())
		if (err == nil) != row.isRight || err != nil && !strings.Contains(err.Error(), "-reload -fewer") {
			t.Errorf("%s: %v", row.name, err)
		}
		bobs, _ := s.sequencesShown()
		if status := s.askAs(s.bob, "GET", "/web/docs/b", bobs).StatusCode; (status == 403) != row.isBobsEnded {
			t.Errorf("%s: %d", row.name, status)
		}
	}
}
