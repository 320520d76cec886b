# The sentences on faults, and the lines that tools/explain puts. tools/hints.awk reads files for more of what is at fault.
BEGIN {
    say["TooLarge"] = "the file has over 1,048,576 bytes, or a typestate over 1,000 states"
    say["BadByte"] = "no token begins here, a comment, text or name has no end, or the file is not UTF-8"
    say["Unsupported"] = "%1 belongs to the language, but is not supported here"
    say["Syntax"] = "the text does not follow the grammar"
    say["DuplicateName"] = "%1 is there twice (or is a name that is taken: Object, String, System, PrintStream, Session)"
    say["UnknownRole"] = "the header does not list the role %1"
    say["PeerIsSelf"] = "a role does not send to itself"
    say["UnknownType"] = "%1 is not declared; int, boolean and String are, and a declaration is of java.lang.Integer, Boolean or String"
    say["PayloadCount"] = "a message carries one value at most"
    say["UnknownRec"] = "continue %1 stands outside of rec %1"
    say["DuplicateRec"] = "rec %1 stands inside another rec %1"
    say["Unguarded"] = "from rec %1 to continue %1 no message is passed: the loop would do nothing"
    say["Unreachable"] = "nothing comes to this statement: the one before it never goes on"
    say["BranchStart"] = "each branch of a choice begins with a message"
    say["MixedChoice"] = "the branches begin with sends where the role itself chooses, with receives from the one role that chooses elsewhere"
    say["SameLabel"] = "two branches begin with %1, so they cannot be told apart"
    say["ReservedLabel"] = "%1 is a word that Java reserves, so it cannot be a constant of an enum"
    say["NameClash"] = "two different messages would both be called %1 in Java: rename one"
    say["TooManyStates"] = "the protocol has over 1,000 states"
    say["UnknownProtocol"] = "no protocol of the file has the name %1"
    say["DuplicateProtocol"] = "two protocols of the file have the name %1"
    say["RolesDiffer"] = "all protocols of a file are of one role and list the same roles in one order, and each do names them all in it"
    say["NotLast"] = "the do of %1 leaves what stands around it, so nothing stands behind the choice or rec that holds it"
    say["StartsWithDo"] = "the first protocol of the file, %1, begins with a message or a choice"
    say["SameRole"] = "two files of the command are of the role %1"
    say["NotAccepted"] = "the client of %1 that would be written isn't accepted beside this file: it is too deep or too large for a file of Java"
    say["NotMergeable"] = "%1 cannot tell which branch of this choice was taken, or of another inside it or beside it: let it do the same in each, or begin each by a message to it, all from one role and no two with one label"
    say["Unprojected"] = "what %1 does of this is refused as a local protocol, by %2: repair that here"
    say["Unplayed"] = "no --role names a class for the role %1"
    say["NoProtocol"] = "no file of the command is the local protocol of %1 (was the one that project writes left out?)"
    say["OtherProtocol"] = "this is not what the global protocol says of %1: take the file that project writes, or change both"
    say["OwnSession"] = "Session.%1 talks beside the objects of the roles: leave that to them"
    say["MadeElsewhere"] = "make the object of %1 once, in the main of its role, outside of other statements and with no return before it"
    say["NotMade"] = "this main makes no object of the class of the role %1"
    say["DuplicateState"] = "the state %1 is there twice"
    say["UnknownState"] = "the typestate has no state %1"
    say["DuplicateMethod"] = "the state has %1 twice"
    say["SignatureDiffers"] = "%1 has another result or other parameters elsewhere: in another state, or in the class"
    say["DuplicateLabel"] = "the label %1 is there twice"
    say["ReservedEnd"] = "end is the finished state, and cannot be declared"
    say["OpenComment"] = "the comment has no */"
    say["OpenText"] = "the text has no closing quote in its line"
    say["BadEscape"] = "known escapes are \\b \\t \\n \\f \\r \\\" \\' and \\\\"
    say["BadNumber"] = "a number is decimal, whole, without leading zeros, and at most 2147483647"
    say["DuplicateMember"] = "%1 is there twice in its class or enum"
    say["UnknownClass"] = "no file of the command has a class %1 with a typestate, or an enum %1 (was a file left out?)"
    say["UnknownTypestate"] = "no file of the command has the typestate %1 (was its .protocol left out?)"
    say["MissingMethod"] = "the typestate names %1, and the class has no such instance method"
    say["LabelsDiffer"] = "the answers of %1 in the typestate are not the constants of its enum (a boolean has none: give %1 an enum)"
    say["FieldNeedsValue"] = "the field %1 needs a constant as its first value"
    say["InstanceInPlain"] = "a class without a typestate has static methods alone: write static, or give it a typestate"
    say["UnknownName"] = "%1 names nothing here: no variable, class or method that can be used"
    say["DuplicateLocal"] = "%1 is already the name of a variable here"
    say["TypeMismatch"] = "the value has another type than is wanted here"
    say["Arity"] = "the number of arguments is not that of the parameters"
    say["BadLabel"] = "break or continue has no such target, or a case no such constant, or is there twice"
    say["MissingReturn"] = "the method can come to its end without a return"
    say["SelfCall"] = "%1 belongs to the typestate, so an object does not call it on itself"
    say["ThisAsValue"] = "this stands before .name alone"
    say["ArgsMayMove"] = "an argument of this call on the field %1 calls a helper, which may change the field"
    say["UseMoved"] = "the object of %1 may have been handed on before: as an argument, by an assignment, or as a result"
    say["MaybeNull"] = "%1 may hold null here: test it with if (%1 != null)"
    say["NotOffered"] = "the object of %1 may be in %2 here, which does not offer this method"
    say["LeftOpen"] = "the object of %1 may be in %2 here, and is dropped before it is finished"
    say["Overwritten"] = "%1 may hold an object in %2 here, which the assignment loses before it is finished"
    say["FieldOpenAtEnd"] = "the object is finished here, or may be left, while its field %1 may hold one in %2, which may not"
    say["CodeTooLong"] = "the code of %1 has over 32,767 bytes"
    say["TooManyLocals"] = "%1 has over 255 variables at once"
    say["PoolFull"] = "the class has over 65,534 constants"
    say["TextTooLong"] = "a text or name has over 65,535 bytes in the class file"
    say["BadLine"] = "a line is empty, a comment #.., a method, or a method and a label with one blank between"
    # of class files, by their bytes, and of class files that are linked, run or verified
    say_bytes["TooLarge"] = "the file has over 16 MiB"
    say_bytes["BadMagic"] = "the file does not begin with ca fe ba be: it is no class file"
    say_bytes["Version"] = "the version of the class file is not 49.0"
    say_bytes["Short"] = "the file ends here, where more is needed"
    say_bytes["TrailingBytes"] = "bytes stand behind the end of the class"
    say_bytes["BadTag"] = "the tag of a constant is none of 1, 3, 7, 8, 9, 10 and 12"
    say_bytes["BadIndex"] = "the number names no constant of the kind that is needed here"
    say_bytes["BadText"] = "the bytes of a text are not modified UTF-8"
    say_bytes["BadAttribute"] = "an attribute has another length than what it holds, or a method has a second code"
    say_bytes["Unsupported"] = "there are interfaces, or handlers of exceptions"
    say_bytes["CodeTooLong"] = "the code of a method has over 32,767 bytes"
    say_bytes["UnknownOpcode"] = "the byte is no opcode that the machine knows"
    say_bytes["BadSwitch"] = "the table of a switch is padded with other bytes than 0, or has its numbers the wrong way round"
    say_bytes["JumpOutside"] = "a jump leads to no instruction of the code"
    say_linked["DuplicateClass"] = "two of the files are of the class %1, or it is one that the machine has"
    say_linked["UnknownClass"] = "no file of the command is of the class %1, or a super class is another than java/lang/Object"
    say_linked["UnknownMember"] = "no class has a field or method %1 of the descriptor and kind that is asked for"
    say_linked["BadDescriptor"] = "%1 is no descriptor that the machine knows"
    say_linked["NoCode"] = "a method has no code, as one that is native or abstract"
    say_linked["NoMain"] = "the program has no class %1 with a static void main(String[] args)"
    say_linked["Stranger"] = "the global protocol has no role %1"
    say_linked["SharedMain"] = "two --role name the class %1: each role has one of its own"
    say_linked["Unverified"] = "no kinds of values fit all places of the method %1"
}
# The text with each mark replaced by a word as it stands.
function put_in(text, mark, word,    at, front) {
    while ((at = index(text, mark)) > 0) { front = front substr(text, 1, at - 1) word; text = substr(text, at + length(mark)) }
    return front text
}
function sentence(text, name,    words) {
    split(name, words, / /)
    text = put_in(text, "%1", words[1])
    return put_in(text, "%2", words[2] == "end" ? "its end" : words[2])
}
# A text in one line, in which a terminal finds nothing to obey: with \xHH for a byte below 32, and for 127.
BEGIN { for (byte = 1; byte < 32; byte++) hex[sprintf("%c", byte)] = sprintf("\\x%02x", byte); hex["\177"] = "\\x7f" }
function shown(text,    front) {
    while (match(text, /[\001-\037\177]/)) {
        front = front substr(text, 1, RSTART - 1) hex[substr(text, RSTART, 1)]; text = substr(text, RSTART + 1)
    }
    return front text
}
# The same of a line of a file, which keeps its tabs.
function shown_line(text,    at, front) {
    while ((at = index(text, "\t")) > 0) { front = front shown(substr(text, 1, at - 1)) "\t"; text = substr(text, at + 1) }
    return front shown(text)
}
# At a place of a text.
function explain_place(file, row, col, fault, name,    text, mark, said) {
    text = line_of(file, row); sub(/\r$/, "", text)
    mark = shown_line(substr(text, 1, col - 1)); gsub(/[\200-\277]/, "", mark); gsub(/[^\t]/, " ", mark)
    said = hint_of(file, row, col, fault, name)
    if (said == "" || said ~ /^;/) said = sentence(fault in say ? say[fault] : "see docs/FAULTS.md", name) said
    printf "%5d | %s\n      | %s^ %s\n", row, shown_line(text), mark, shown(said)
}
function explain_bare(table_has, text, name) {
    printf "      | %s\n", shown(table_has ? sentence(text, name) : "see docs/FAULTS.md")
}
# The names with line feeds among the words, which are no files that are to be read here.
BEGIN { for (i = 1; i < ARGC; i++) { if (index(ARGV[i], "\n")) broken[++count] = ARGV[i]; delete ARGV[i] } }
# The line with those that stand behind it, where a name with line feeds begins it.
function joined(line,    i, k, part, parts, bare) {
    bare = line; sub(/^(mungo: (read|write) |      )/, "", bare)
    for (i = 1; i <= count; i++) {
        parts = split(broken[i], part, "\n")
        if (bare != part[1]) continue
        for (k = 2; k <= parts && (getline bare) > 0; k++) line = line "\n" bare
        return line
    }
    return line
}
{
    $0 = joined($0)
    print shown($0)
    if (match($0, /:[0-9]+:[0-9]+: [A-Z][A-Za-z]+( [^:]*)?$/) && RSTART > 1) {
        file = substr($0, 1, RSTART - 1)
        split(substr($0, RSTART + 1), part, ":")
        rest = part[3]; sub(/^ /, "", rest)
        fault = name = rest; sub(/ .*/, "", fault); sub(/^[A-Za-z]+ ?/, "", name)
        explain_place(file, part[1] + 0, part[2] + 0, fault, name)
    } else if (match($0, /:[0-9]+: [A-Z][A-Za-z]+$/) && RSTART > 1) {
        fault = $0; sub(/.*: /, "", fault)
        explain_bare(fault in say_bytes, say_bytes[fault], "")
    } else if ($0 ~ /^mungo: [A-Z][A-Za-z]+( |$)/) {
        fault = name = substr($0, 8); sub(/ .*/, "", fault); sub(/^[A-Za-z]+ ?/, "", name)
        explain_bare(fault in say_linked, say_linked[fault], name)
    }
}
