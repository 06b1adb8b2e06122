#!/usr/bin/env bash
# tools/explain.py and tools/dump.py: what they say of document 01's listing; explain's answers are schedule's on all vectors, and one that differs is told;
# dump marks what is damaged, on words of runs, damaged and random; both as filters: any length, in little memory, with a status.
cd "$(dirname "$0")/.." || exit 2
there=$(mktemp -d)
trap 'rm -rf "$there"' EXIT
failed=0
says() { # WHAT GOT WANTED
  if [ "$2" != "$3" ]; then echo "tools: $1: got '${2:0:300}', wanted '${3:0:300}'"; failed=$((failed + 1)); fi
}
explain() { python3 tools/explain.py "$@"; }
dump() { python3 tools/dump.py "$@"; }
# ended COMMAND..: its status, and the last line that it says on standard error
ended() { "$@" 2> "$there/error" > /dev/null; echo "$? $(tail -n 1 "$there/error")"; }

explain < tests/listing.in > "$there/told"
says "the listing, status" "$?" 0
diff tests/listing.told "$there/told" > /dev/null || says "the listing in words" differ same
agrees() { # NAME: NAME.in's answers are NAME.out, and none is told as differing
  explain --answers "$1.out" < "$1.in" > "$there/told" 2> /dev/null
  says "$1, status" "$?" 0
  says "$1, lines told" "$(wc -l < "$there/told")" "$(wc -l < "$1.out")"
  says "$1, answers that differ" "$(grep -c differs "$there/told")" 0
}
# The long schedule and the vectors that start with a make that is accepted, as one; each other vector alone.
cat crates/schedule/stdin <(echo) > "$there/joined.in"
cp crates/schedule/stdout "$there/joined.out"
for vector in tests/vectors/*.in; do
  if [ "$(head -c 2 "${vector%.in}.out")" != 02 ]; then agrees "${vector%.in}"; continue; fi
  cat "$vector" >> "$there/joined.in"
  cat "${vector%.in}.out" >> "$there/joined.out"
done
agrees "$there/joined"
for refusal in 1 2 3 4 5 6 7 8 9 10 11 12 13; do grep -q ": refused $refusal (" "$there/told" || says "refusal $refusal" "never told" told; done

sed '7s/^01/00/' tests/listing.out > "$there/one"
says "an answer that differs" "$(ended explain --answers "$there/one" < tests/listing.in)" "1 explain: answers that differ: 1, the first at frame 7"
says "where it differs" "$(explain --answers "$there/one" < tests/listing.in 2> /dev/null | grep differs)" \
  "frame 7: worker 1, vCAS of item 0 from 1 to 2, step 1, line 41: running; differs: given is 0000000000000000000001 (answers 0, steps 1)"
head -n 17 tests/listing.out > "$there/one"
says "an answer too few" "$(ended explain --answers "$there/one" < tests/listing.in)" "1 explain: answers that differ: 1, the first at frame 18"
cat tests/listing.out <(echo 0) > "$there/one"
says "an answer too many" "$(ended explain --answers "$there/one" < tests/listing.in)" "1 explain: more answers than frames"
sed '3s/.*/0300000000000000000000/;4s/.*/zz/' tests/listing.out > "$there/one"
says "answers that are none" "$(explain --answers "$there/one" < tests/listing.in 2> /dev/null | grep -c 'which is no answer')" 2
says "no such file" "$(ended explain --answers "$there/none" < tests/listing.in)" "1 explain: $there/none cannot be read"
says "no last line feed" "$(printf '\n080000' | explain | cut -d: -f1,2 | tr '\n' ' ')" "frame 1: a line that is no frame frame 2: worker 0, step "
says "a wrong argument" "$(ended explain --no < /dev/null | cut -c 1)" 2

# As filters.
# little_memory: what explain holds at most (in KiB) grows by less than 4 MiB from 10 lines to 100,000 and one of 100 MB
little_memory() {
  python3 - << 'END'
import resource, subprocess
def most(text):
    told = subprocess.run(f"{{ {text}; }} | python3 tools/explain.py | tail -n 1 | cut -d: -f1", shell=True, stdout=subprocess.PIPE, text=True).stdout.strip()
    return told, resource.getrusage(resource.RUSAGE_CHILDREN).ru_maxrss
_, little = most("yes 080000 | head -n 10")
told, much = most("head -c 100000000 /dev/zero; echo; yes 080000 | head -n 99999")
print(told, much - little < 4096)
END
}
says "long input" "$(little_memory)" "frame 100000 True"
says "nobody reads on" "$({ yes 080000 | { explain; echo $? >&2; } | head -n 1 > /dev/null; } 2>&1)" 141
full() { { "$@" > /dev/full; } 2>&1; echo $?; }
closed() { { "$@" >&-; } 2>&1; echo $?; }
says "explain on a full disk" "$(full explain < tests/listing.in)" "explain: standard output cannot be written"$'\n'1
says "explain and a closed output" "$(closed explain < tests/listing.in)" "explain: standard output cannot be written"$'\n'1
says "explain and a closed input" "$(explain 2>&1 <&-; echo $?)" "explain: standard input cannot be read"$'\n'1

# The listing's words at its end, and before the change has its stamp: as bytes, as gdb prints them, and as signed numbers.
python3 - "$there" << 'END'
import struct, sys
sys.dont_write_bytecode = True
sys.path.insert(0, "tools")
from catalogue import Catalogue, lines_of, needed_words
catalogue = Catalogue()
for number, line in enumerate(lines_of(open("tests/listing.in").read()), 1):
    catalogue.call_line(line)
    if number not in (11, 18):
        continue
    words = catalogue.words[: needed_words(2, 2, 8)]
    rows = [words[at : at + 4] for at in range(0, len(words), 4)]
    with open(f"{sys.argv[1]}/words.{number}", "wb") as file:
        file.write(struct.pack(f"<{len(words)}I", *words))
    with open(f"{sys.argv[1]}/words.{number}.gdb", "w") as text:
        for at, row in enumerate(rows):
            text.write(f"0x5{16 * at:x} <words+{16 * at}>:\t" + "\t".join(f"0x{word:08x}" for word in row) + "\n")
    with open(f"{sys.argv[1]}/words.{number}.signed", "w") as text:
        text.writelines(" ".join(str(word - (word >> 31 << 32)) for word in row) + "\n" for row in rows)
END
mv "$there/words.18" "$there/words"
dump "$there/words" > "$there/dumped"
says "the listing's words, status" "$?" 0
diff tests/listing.shown "$there/dumped" || says "the listing's words" differ same
dump < "$there/words" | cmp -s - tests/listing.shown || says "words from standard input" differ same
says "a stamp to be decided" "$(dump "$there/words.11" | sed -n 6p)" "  node 1: project 2, stamp TBD"
for text in gdb signed; do
  dump --text "$there/words.18.$text" | cmp -s - tests/listing.shown || says "words in text, $text" differ same
  dump --text "$there/words.11.$text" | cmp -s - <(dump "$there/words.11") || says "words in text with TBD, $text" differ same
done
head -c 300 "$there/words" > "$there/cut"
says "words cut short" "$(dump "$there/cut" | grep -c '^  damaged: fewer words'; echo "${PIPESTATUS[0]}")" "1"$'\n'1
says "odd bytes" "$(head -c 301 "$there/words" | ended dump)" "1 dump: the bytes are no whole number of 32-bit words"
says "no numbers" "$(echo 0x1 12 x | ended dump --text)" "1 dump: no 32-bit number: x"
says "a number too large" "$(echo 4294967296 | ended dump --text)" "1 dump: no 32-bit number: 4294967296"
says "nothing" "$(ended dump < /dev/null)" "1 "
says "no end" "$(timeout 20 python3 tools/dump.py < /dev/zero | sed -n 2p)" "words: 14352 or more given, 16 needed"
says "no such words" "$(ended dump "$there/none")" "1 dump: $there/none cannot be read"
says "dump on a full disk" "$(full dump "$there/words")" "dump: standard output cannot be written"$'\n'1
says "dump and a closed output" "$(closed dump "$there/words")" "dump: standard output cannot be written"$'\n'1
says "a wrong argument of dump" "$(ended dump --no < /dev/null | cut -c 1)" 2
for tool in explain dump; do says "$tool --help" "$($tool --help | head -n 1 | cut -d' ' -f1,2)" "usage: $tool.py"; done
dumped=$(python3 tests/dump_words.py tests/vectors/*.in) || says "dump on many words" "$dumped" passed

if [ "$failed" = 0 ]; then echo "tools: all passed; ${dumped}"; else echo "tools: $failed failed"; exit 1; fi
