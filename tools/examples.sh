#!/bin/sh
# Runs the commands that documents show, and compares what they write with what stands there.
#
#     tools/examples.sh DOCUMENT ..
#
# In a block between two lines that begin with ``` each line that begins with `$ ` is a command, and
# the lines behind it, up to the next command or the end of the block, are all that it is to write.
# The commands of a document run one after another in one shell, in a new folder that has `pls`,
# `examples`, `tools` and `plsdesk` on its path. A picture that they leave there is compared with the one of its name
# in docs/pictures. The last line is `N passed, M failed`; the status is 1 where one failed or none passed.

top=$(cd "$(dirname "$0")/.." && pwd) || exit 1
[ -x "$top/pls" ] || { echo 'examples.sh: there is no ./pls: make pls builds it' >&2; exit 1; }
PATH=$top/python/bin:$PATH
PLS=$top/pls
export PATH PLS
work=$(mktemp -d) || exit 1
trap 'rm -rf "$work"' EXIT
mark="@@ $$ behind"
passed=0
failed=0

for document; do
    mkdir -p "$work/run" "$work/want"
    ln -s "$top/pls" "$top/examples" "$top/tools" "$work/run/"
    # one script of all commands, and a file of what each is to write
    awk -v want="$work/want/" -v mark="$mark" '
        /^ *```/ { inside = !inside; now = 0; next }
        !inside { next }
        /^\$ / {
            now = ++count
            command = substr($0, 3)
            print "(exit ${status:-0})"
            print command
            print "status=$?"
            print "echo; echo \"" mark " " count "\""
            print command > (want count ".command")
            printf "" > (want count ".text")
            close(want count ".command")
            next
        }
        now { print > (want now ".text") }
    ' "$document" > "$work/script" || exit 1
    (cd "$work/run" && sh "$work/script" 2>&1) > "$work/got"
    awk -v mark="$mark" -v want="$work/want/" '
        index($0, mark " ") == 1 {
            number = substr($0, length(mark) + 2)
            # the line before the mark ends what was written, and is empty where that ended in a line feed
            if (many && lines[many] == "") many--
            file = want number ".got"
            printf "" > file
            for (i = 1; i <= many; i++) print lines[i] > file
            close(file)
            many = 0
            next
        }
        { lines[++many] = $0 }
    ' "$work/got" || exit 1
    for command in "$work"/want/*.command; do
        [ -e "$command" ] || continue
        base=${command%.command}
        if [ -e "$base.got" ] && cmp -s "$base.text" "$base.got"; then
            passed=$((passed + 1))
        else
            failed=$((failed + 1))
            echo "$document: this writes something else:"
            sed 's/^/    $ /' "$command"
            diff "$base.text" "$base.got" 2>&1 | sed 's/^/    /'
        fi
    done
    for picture in "$work"/run/*.svg; do
        name=${picture##*/}
        [ -e "$top/docs/pictures/$name" ] || continue
        if cmp -s "$picture" "$top/docs/pictures/$name"; then
            passed=$((passed + 1))
        else
            failed=$((failed + 1))
            echo "$document: $name is drawn otherwise in docs/pictures"
        fi
    done
    rm -rf "$work/run" "$work/want"
done

echo "$passed passed, $failed failed"
[ "$passed" -gt 0 ] && [ "$failed" -eq 0 ]
