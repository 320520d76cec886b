# A part of tools/test-tools: the package of the extension for VS Code.
# shellcheck shell=bash disable=SC2154

if command -v python3 >/dev/null; then
    vsix=$room/vsix
    mkdir -p "$vsix"/{one,two,there/tools,there/editors}
    version=$(python3 -c 'import json; print(json.load(open("editors/vscode/package.json"))["version"])')
    gives "vsix: it is made" 0 tools/vsix --out "$vsix/one" <<<"$vsix/one/mungo-$version.vsix"
    # The same bytes of a copy whose files have other times and permissions, in another zone, and in another order on the disk.
    cp tools/vsix "$vsix/there/tools"
    mkdir "$vsix/there/editors/vscode" && for file in $(cd editors/vscode && find . -type f | sort -r); do
        mkdir -p "$vsix/there/editors/vscode/$(dirname "$file")" && cat "editors/vscode/$file" >"$vsix/there/editors/vscode/$file"
        chmod 600 "$vsix/there/editors/vscode/$file" && touch -d '2001-02-03 04:05' "$vsix/there/editors/vscode/$file"
    done
    (umask 077 && TZ=Asia/Tokyo "$vsix/there/tools/vsix" --out "$vsix/two" >/dev/null) && cmp "$vsix/one/mungo-$version.vsix" "$vsix/two/mungo-$version.vsix"
    count "vsix: the same files give the same bytes" $?
    # Another file is another package.
    echo '// more' >>"$vsix/there/editors/vscode/client.js"
    "$vsix/there/tools/vsix" --out "$vsix/two" >/dev/null && ! cmp -s "$vsix/one/mungo-$version.vsix" "$vsix/two/mungo-$version.vsix"
    count "vsix: another file is seen" $?
    # What is in it, unpacked by another program where there is one.
    mkdir "$vsix/in"
    if command -v unzip >/dev/null; then unzip -q "$vsix/one/mungo-$version.vsix" -d "$vsix/in"
    else python3 -m zipfile -e "$vsix/one/mungo-$version.vsix" "$vsix/in"; fi
    count "vsix: it is unpacked" $?
    diff -r editors/vscode "$vsix/in/extension"
    count "vsix: it has the extension" $?
    [ "$(cd "$vsix/in" && find . -maxdepth 1 -mindepth 1 | LC_ALL=C sort | tr '\n' ' ')" = './[Content_Types].xml ./extension ./extension.vsixmanifest ' ]
    count "vsix: and two files beside it" $?
    cat >"$vsix/told.py" <<'TEXT'
"""What the package says of itself: that of package.json, its engine, a file that is there, and a kind for each file."""
import json, os, sys, xml.etree.ElementTree as tree

os.chdir(sys.argv[1])
told, manifest = json.load(open("extension/package.json")), tree.parse("extension.vsixmanifest")
kinds = {it.get("Extension") for it in tree.parse("[Content_Types].xml").getroot()}
every = lambda name: [it.attrib for it in manifest.iter("{http://schemas.microsoft.com/developer/vsx-schema/2011}" + name)]
identity, asset = every("Identity")[0], every("Asset")[0]
names = [name for _, _, names in os.walk("extension") for name in names] + ["extension.vsixmanifest"]
assert [identity[it] for it in ("Id", "Version", "Publisher")] == [told[it] for it in ("name", "version", "publisher")], identity
assert {"Id": "Microsoft.VisualStudio.Code.Engine", "Value": told["engines"]["vscode"]} in every("Property"), every("Property")
assert every("InstallationTarget")[0]["Id"] == "Microsoft.VisualStudio.Code"
assert asset["Type"] == "Microsoft.VisualStudio.Code.Manifest" and os.path.isfile(asset["Path"]), asset
assert all(os.path.splitext(name)[1] in kinds for name in names), names
assert os.path.isfile("extension/" + told["main"])
for grammar in told["contributes"]["grammars"] + [{"path": it["configuration"]} for it in told["contributes"]["languages"]]:
    assert os.path.isfile("extension/" + grammar["path"]), grammar
TEXT
    timeout 60 python3 "$vsix/told.py" "$vsix/in"
    count "vsix: what it says of itself" $?
    # A file of no known kind, and no folder.
    touch "$vsix/there/editors/vscode/notes.txt"
    gives "vsix: a file of no kind that is known" 1 "$vsix/there/tools/vsix" --out "$vsix/two" <<TEXT
vsix: $vsix/there/editors/vscode/notes.txt is of no kind that is known: .js, .json, .vsixmanifest
TEXT
    gives "vsix: no folder" 1 tools/vsix --out "$vsix/none" <<<"vsix: there is no folder $vsix/none"
else
    echo "vsix skipped: there is no python3"
fi
