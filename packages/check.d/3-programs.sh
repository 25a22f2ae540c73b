# The programs, their pages and what completes their words.

same 'timefd, on no library of the system' "$(printf 'due [day]' | clean "$prefix/bin/timefd" 3)" 'ok bytes 6'
same 'timefd_lint' "$(printf '[mnth]\n' | clean "$prefix/bin/timefd_lint" --format short || true)" \
    '<stdin>:1:2: invalid component name `mnth` at byte index 1'
same 'the version of timefd_lint' "$(clean "$prefix/bin/timefd_lint" --version)" "timefd_lint $version"
same 'timefd_format' "$(clean "$prefix/bin/timefd_format" '[day] [month repr:long]' 2026-11-23)" '23 November'
same 'the version of timefd_format' "$(clean "$prefix/bin/timefd_format" --version)" "timefd_format $version"
for name in timefd timefd_lint timefd_format; do
    readelf -l "$prefix/bin/$name" | grep -q INTERP && fail "$name of the release wants a loader"
    cc -static-pie "$release/objects/$name.o" -o "$room/$name.linked"
done
same 'timefd, linked again' "$(printf 'due [day]' | "$room/timefd.linked" 3)" 'ok bytes 6'

# The steps of a CI and the hook for commits, over a project whose source has bad formats, and then none.
project=$room/project
mkdir -p "$project/tools" "$project/src"
cp "$releases/timefd-$version-$triple.tar.xz" "$project/tools"
cp "$top/examples/lint/source.rs" "$project/src"
git -C "$project" init -q
git -C "$project" add src
sed -n 's/^ *- run: //p' "$top/examples/ci/github.yml" > "$room/steps"
hook=$(sed -n 's/^ *entry: //p' "$top/.pre-commit-hooks.yaml")
# A step and a hook: how many errors they show, and whether they fail.
steps() {
    (cd "$project" && RUNNER_TEMP=$room/project sh -e "$room/steps" 2> /dev/null && echo passed) |
        grep -c -e '^::error ' -e '^passed'
}
hooked() {
    (cd "$project" && clean "$prefix/bin/$hook" src/source.rs 2> /dev/null && echo passed) | grep -c -e '^error' -e '^passed'
}
same 'errors that the steps of a CI show' "$(steps)" 4
same 'errors that the hook shows' "$(hooked)" 4
# The same errors as a SARIF log: the level, the rule, the position, its end if it has one, and the word to write. What a table of
# chrono refuses has no end.
cat > "$room/results.py" << 'END'
import json, sys
log = json.load(sys.stdin)
print(log["version"])
for result in log["runs"][0]["results"]:
    location = result["locations"][0]["physicalLocation"]
    at = location["region"]
    words = [result["level"], result["ruleId"], location["artifactLocation"]["uri"]]
    words += [at[name] for name in ("startLine", "startColumn", "endLine", "endColumn") if name in at]
    for fix in result.get("fixes", []):
        words.append(fix["artifactChanges"][0]["replacements"][0]["insertedContent"]["text"])
    print(*words)
END
logged() {
    (cd "$project" && clean "$prefix/bin/timefd_lint" --format sarif src/source.rs 2> /dev/null || true) |
        python3 "$room/results.py"
}
same 'the errors in a SARIF log' "$(logged)" '2.1.0
error unknown-name src/source.rs 7 34 7 38 month
error invalid-modifier src/source.rs 12 38 12 41 zero
error unknown-directive src/source.rs 14 36
error unclosed-bracket src/source.rs 16 21 16 22'
printf 'fn main() {}\n' > "$project/src/source.rs"
same 'no error in a SARIF log' "$(logged)" '2.1.0'
same 'the steps of a CI where there are none' "$(steps)" 1
same 'the hook where there are none' "$(hooked)" 1

if has man 'reading the manual pages'; then
    for page in timefd.1 timefd_lint.1 timefd_format.1 timefd.3 timefd_judge.3; do
        MANPATH="$prefix/share/man" man "${page##*.}" "${page%.*}" > "$room/said" || fail "man does not show $page"
        grep -Eq "^ *timefd.* -( |\$)" "$room/said" || fail "man shows something else as $page"
    done
fi
"$here/words" "$prefix/bin" > "$room/said" || fail 'the options of a program'
passed=$((passed + $(sed -n 's/^packages\/words: \([0-9]*\) passed, 0 failed$/\1/p' "$room/said")))
sed -n '/SKIPPED/p' "$room/said" >> "$room/skipped"
share=$prefix/share
for pair in timefd.bash:bash-completion/completions/timefd_lint _timefd:zsh/site-functions/_timefd \
    timefd_lint.fish:fish/vendor_completions.d/timefd_lint.fish; do
    cmp "$here/completions/${pair%:*}" "$share/${pair#*:}" || fail "what completes words is installed otherwise: ${pair#*:}"
done
