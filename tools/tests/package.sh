# A part of tools/test-tools: the man page, the completions and the Debian package, where there is what reads them.
# shellcheck shell=bash disable=SC2154

# What tools/describe makes follows the words of `--help`.
if command -v python3 >/dev/null; then
    mkdir -p "$room/described/tools" "$room/described/docs" && cp tools/describe "$room/described/tools"
    printf '## Some\n\n## not\n' >"$room/described/docs/FAULTS.md"
    cat >"$room/described/mungo" <<'END'
#!/bin/sh
cat <<'TEXT'
mungo does this.

  mungo one [--out D] F           tells -x
  mungo two --role R=C .. G F..
                                  tells of two
                                  lines, or --main C
  mungo --version                 the version

Exit statuses:
  0   Done        done
  70              not built
TEXT
END
    chmod +x "$room/described/mungo"
    gives "describe --check: nothing there" 1 "$room/described/tools/describe" --check <<'TEXT'
docs/mungo.1 isn't of what ./mungo --help tells: tools/describe writes it anew
docs/completions/mungo.bash isn't of what ./mungo --help tells: tools/describe writes it anew
docs/completions/_mungo isn't of what ./mungo --help tells: tools/describe writes it anew
docs/completions/mungo.fish isn't of what ./mungo --help tells: tools/describe writes it anew
TEXT
    "$room/described/tools/describe" && "$room/described/tools/describe" --check
    count "describe" $?
    sed 's/^\.\\".*/.\\" ../' "$room/described/docs/mungo.1" | diff - <(cat <<'TEXT'
.\" ..
.TH MUNGO 1
.SH NAME
mungo \- does this
.SH SYNOPSIS
.nf
mungo one [\-\-out D] F
mungo two \-\-role R=C .. G F..
mungo \-\-version
.fi
.SH COMMANDS
.TP
.B mungo one [\-\-out D] F
tells \-x
.TP
.B mungo two \-\-role R=C .. G F..
tells of two lines, or \-\-main C
.TP
.B mungo \-\-version
the version
.SH EXIT STATUS
.TP
.B 0 Done
done
.TP
.B 70
not built
.SH SEE ALSO
COMMANDS.md, LANGUAGE.md and FAULTS.md in the folder docs of the repository; for editors
.BR mungo\-lsp .
TEXT
    )
    count "describe: the man page" $?
fi
if command -v man >/dev/null; then
    said=$(MANROFFSEQ='' MANWIDTH=100 man --warnings -l docs/mungo.1 2>&1 >/dev/null </dev/null)
    [ -z "$said" ]
    count "man: the page has no faults" $?
fi

# What is offered behind some words.
completed() {
    bash --norc -c '. docs/completions/mungo.bash; COMP_WORDS=("$@"); COMP_CWORD=$(($# - 1)); _mungo; echo "${COMPREPLY[*]}"' bash "$@"
}
[ "$(completed mungo tr) $(completed mungo run --or) $(completed mungo --explain LeftO) $(completed mungo check examples/adder/CM)" = \
    'translate --order LeftOpen examples/adder/CMain.java' ]
count "bash: what is completed" $?
if command -v zsh >/dev/null; then
    zsh -f -n docs/completions/_mungo
    count "zsh: the completions are read" $?
fi
if command -v fish >/dev/null; then
    [ "$(HOME=$room fish --no-config -c 'source docs/completions/mungo.fish; complete -C "mungo run --or"; complete -C "mungo conf"' 2>/dev/null | cut -f1)" = \
        "--order
conform" ]
    count "fish: what is completed" $?
fi

# The package has what it is to have, and what is in it runs from its own folder.
if command -v dpkg-deb >/dev/null && [ -x release/mungo ] && [ -x release/mungo-lsp ]; then
    mkdir -p "$room/package"
    package=$(tools/package --out "$room/package") && dpkg-deb -x "$package" "$room/package/root"
    count "package: it is built" $?
    bin=$room/package/root/usr/bin
    diff <("$bin/mungo" --help) <(./mungo --help) && diff <("$bin/mungo" --version) <(./mungo --version) &&
        diff <("$bin/mungo" --explain LeftOpen) <(./mungo --explain LeftOpen)
    count "package: what ./mungo answers itself" $?
    gives "package: run" 0 "$bin/mungo" run --main Hello examples/hello/Hello.java < <(release/mungo run --main Hello examples/hello/Hello.java 2>&1)
    if [ -f "$room/near/terminal.py" ] && command -v python3 >/dev/null; then
        gives "package: the nearest command" 2 python3 "$room/near/terminal.py" "$bin/mungo" chek < <(echo "mungo: words chek"; said_of check)
    fi
    env -u MUNGO "$bin/mungo-check" examples/file/*.* examples/file/refused/Forgetful.java >"$room/got" 2>&1
    [ $? -eq 1 ] && grep -q 'Close of FileProtocol offers: close()' "$room/got"
    count "package: mungo-check" $?
    [ "$("$bin/mungo-lsp" --version)" = "mungo-lsp $(cat release/version)" ] && "$bin/mungo-lsp" </dev/null
    [ $? -eq 1 ]
    count "package: mungo-lsp" $?
    lacks=
    for path in usr/share/man/man1/mungo.1.gz usr/share/bash-completion/completions/mungo usr/share/zsh/vendor-completions/_mungo \
        usr/share/fish/vendor_completions.d/mungo.fish usr/lib/mungo/release/page.html usr/lib/mungo/java/Session.java \
        usr/share/doc/mungo/docs/COMMANDS.md usr/share/doc/mungo/CHANGELOG.md; do
        [ -s "$room/package/root/$path" ] || lacks="$lacks $path"
    done
    [ -z "$lacks" ]
    count "package: lacks$lacks" $?
    # Installed into a folder of its own, and removed: nothing is left but the folders of others.
    if command -v dpkg >/dev/null && [ "$(id -u)" = 0 ]; then
        root=$room/package/installed
        mkdir -p "$root/var/lib/dpkg"/{info,updates} && touch "$root/var/lib/dpkg"/{status,available}
        dpkg --root="$root" --force-depends --force-script-chrootless -i "$package" >"$room/got" 2>&1 &&
            [ "$("$root/usr/bin/mungo" --version)" = "$(./mungo --version)" ]
        count "package: installed" $?
        dpkg --root="$root" --force-script-chrootless -r mungo >>"$room/got" 2>&1 && [ -z "$(find "$root/usr" -type f -o -type l 2>/dev/null)" ]
        count "package: removed" $?
    fi
fi
