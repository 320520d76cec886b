# What tools/explain says of a fault beyond its sentence, read off the file: of the token at which the grammar is left, by
# it and those before it; of a variable, where its object was handed on; of a name of Java that is none of the program.
# `tokenize` keeps the tokens of a file, without comments; `hint_of` gives the words, or "" where there is nothing to say.
# tools/check runs it with variables: `answers` has methods that answer with labels, as `hasNext next`, and the variable
# `file` of the shell the name of the file, which may have letters that awk would take for others.
BEGIN { if (answers != "" && (told = outside_switch(ENVIRON["file"], row, col, name, answers)) != "") print told }

# A name as one word of the shell.
function quoted(name,    at, front) {
    while ((at = index(name, "'")) > 0) { front = front substr(name, 1, at - 1) "'\\''"; name = substr(name, at + 1) }
    return "'" front name "'"
}
function is_file(name) { return system("test -f " quoted(name)) == 0 }
# The command that gives what mungo reads of a file: of a device, which may have no end, nothing.
function text_of(name) { return "test -f " quoted(name) " && exec head -c 1048576 <" quoted(name) }

function line_of(file, row,    text, number, command) {
    command = text_of(file)
    for (number = 1; number <= row; number++) if ((command | getline text) <= 0) { text = ""; break }
    close(command)
    return text
}
function tokenize(file,    line, text, row, at, size, open, command) {
    total = 0; row = 0; open = 0; command = text_of(file)
    while ((command | getline line) > 0) {
        row++; at = 1; size = 1000
        # A long line is looked at piece by piece; a token that a piece may cut takes a longer one.
        while (at <= length(line)) {
            text = substr(line, at, size)
            if (open) {
                if (!match(text, /\*\//)) { if (at + size > length(line)) break; at += size - 1; continue }
                RLENGTH += RSTART - 1; open = 0
            } else if (match(text, /^[ \t\r\f]+/)) { }
            else if (match(text, /^\/\//)) {
                # In Java a carriage return ends a comment too.
                if (file !~ /\.java$/ || !(RLENGTH = index(substr(line, at), "\r"))) break
            }
            else if (match(text, /^\/\*/)) open = 1
            else {
                if (match(text, /^[A-Za-z0-9_$]+/)) { }
                else if (match(text, /^"([^"\\]|\\.)*"/)) { }
                else if (match(text, /^([=!<>+*\/%-]=|\+\+|--|&&|\|\|)/)) { }
                else RLENGTH = 1
                if (at + size <= length(line) && (RLENGTH > size - 2 || RLENGTH == 1 && text ~ /^"/)) { size *= 2; continue }
                token[++total] = substr(text, 1, RLENGTH); row_of[total] = row; col_of[total] = at
            }
            at += RLENGTH; size = 1000
        }
    }
    close(command)
    token[total + 1] = ""; row_of[total + 1] = row + 1
}
# The number of the token at a place; one more than there are where none stands at it.
function token_at(row, col,    i) {
    for (i = 1; i <= total; i++) if (row_of[i] == row && col_of[i] == col) return i
    return total + 1
}
function tok(i) { return i < 1 ? "" : token[i] }

function is_one_of(word, words) { return word != "" && index(" " words " ", " " word " ") > 0 }
function is_word(word) { return word ~ /^[A-Za-z_$][A-Za-z0-9_$]*$/ }
function is_number(word) { return word ~ /^[0-9]/ }
function is_text(word) { return word ~ /^"/ }

# What is open before the token i: `depth` braces, `parens` parentheses within the last of them, `first` the token that
# begins the statement or member, and `body` what the outermost brace is of, as `class` or `enum`.
function look_around(i,    k, t, kept) {
    depth = parens = 0; first = 1; body = ""
    for (k = 1; k < i; k++) {
        t = token[k]
        if (depth == 0 && is_one_of(t, "class enum")) body = t
        if (t == "(") parens++
        else if (t == ")") parens -= parens > 0
        else if (t == "{") { kept[++depth] = parens; parens = 0; first = k + 1 }
        else if (t == "}") { parens = depth > 0 ? kept[depth] : 0; depth -= depth > 0; first = k + 1 }
        else if (t == ";" && parens == 0) first = k + 1
        else if (t == ":" && parens == 0 && (token[first] == "case" || token[first] == "default")) first = k + 1
    }
}
# Whether one of these words stands from the token `first` on, before the token i.
function has_before(i, words,    k) {
    for (k = first; k < i; k++) if (is_one_of(token[k], words)) return 1
    return 0
}
# The names and types from `first` on before the token i, modifiers aside.
function words_before(i,    k, n) {
    n = 0
    for (k = first; k < i; k++) if (!is_one_of(token[k], "public private protected static final")) n++
    return n
}

# Java.

function is_keyword(word) {
    return is_one_of(word, "boolean break case class continue default do else enum final if import int new package" \
        " private protected public return static switch this void while true false null")
}
function is_name(word) { return is_word(word) && !is_keyword(word) }
function is_type(word) { return word == "int" || word == "boolean" || is_name(word) }
function ends_value(word) {
    return is_name(word) || is_number(word) || is_text(word) || is_one_of(word, ") this true false null")
}
# Signs of which nothing is read, wherever they stand.
function java_sign(i, t, a) {
    if (t == "[" && is_one_of("String", a " " tok(i - 2)) && depth < 2)
        return "String[] is the parameter of main alone: static void main(String[] args)"
    if (t == "[" || a == "new" && tok(i + 1) == "[") return "there are no arrays: objects of a class hold the next one (docs/LANGUAGE.md)"
    if (t == "." && is_type(a) && tok(i + 1) == ".") return "a method has as many parameters as are written: there is no .."
    if (t == "<" && (a == "<" || tok(i + 1) == "<") || t == ">" && a == ">") return "there are no shifts: write * 2 or / 2"
    if (t == "<") return "there are no generics: a class, a method and a type have no <..>"
    if (t == ">" && a == "-") return "there are no lambdas: a method is called by its name"
    if (t == ":" && a == ":") return "there are no references to methods: call the method"
    if (t == "@" || a == "@") return "of annotations there is @Typestate(\"P\") alone, before its class"
    if (a == "@Typestate" || a == "Typestate" && tok(i - 2) == "@" || a == "(" && tok(i - 2) == "Typestate")
        return "the annotation has the name of the typestate between quotes: @Typestate(\"P\")"
    return ""
}
# Between files' classes.
function java_top(i, t, a,    k) {
    if (body == "enum" && depth == 1) {
        if (t == "(") return "the constants of an enum are names alone, without arguments"
        if (t == "}" && a == "{") return "an enum has one constant at least"
        return "an enum has its constants alone, with commas between"
    }
    if (depth > 0) return ""
    if (t == "}") return "this } closes nothing: one too many stands before it"
    if (t == "static" && a == "import") return "there are no static imports; imports are read and not kept"
    if (is_one_of(t, "public private protected static final")) {
        for (k = i; is_one_of(token[k], "public private protected static final"); k++) { }
        if (is_one_of(token[k], "class enum")) return "of modifiers a class has public and final alone, an enum public"
        return "methods and fields stand in a class: is a } too many before this?"
    }
    if (is_one_of(a, "class enum")) return "here stands the name of the " a
    if (t == "(" && tok(i - 2) == "class") return "a class has no parameters: behind its name stands {"
    if (i == total && is_one_of(t, "class enum")) return "the file ends here, where a " t " begins"
    if (is_one_of(a, "package import")) return "here stands a path, names with . between"
    if (has_before(i, "package import")) return "a ; is missing behind the path"
    if (has_before(i, "class enum")) return "behind the name of a class or an enum stands {"
    return "here stands package, import, a class or an enum: methods and fields stand in a class"
}
# Fields and methods.
function java_member(i, t, a,    n) {
    n = words_before(i)
    if (is_one_of(t, "class enum")) return "classes and enums stand beside one another, not inside a class"
    if (i == first && is_one_of(t, "if else while do switch case default break continue return"))
        return "statements stand in methods: is a } too many before this?"
    if (t == "{" && (i == first || is_one_of(a, "static"))) return "there are no initialisers: a method gives fields their values"
    if (t == ";" && i == first) return "a ; alone is no member: remove it"
    if (t == "(" && n == 1 && a == class_name(i))
        return "there are no constructors: fields begin with their values, and a method sets the others"
    if (t == "(" && n == 1) return "the method " a " has no type: write void, or the type of its result, before its name"
    if (is_one_of(t, "= ; ,") && parens == 0 && n == 2 && has_before(i, "static") && !has_before(i, "("))
        return "there are no static fields: a constant is a method, static " tok(i - 2) " " a "() { return ..; }"
    if (t == "," && parens == 0) return "each field has a declaration of its own"
    if (t == ";" && a == ")") return "a method has a body, { .. }: none is abstract"
    if (t == "=" && a == ")") return "a method has a body, { .. }, and no ="
    if (parens > 0 && t == "=") return "a parameter has no value of its own"
    if (parens > 0 && is_one_of(t, ", )") && is_type(a)) return "a parameter is a type and a name"
    if (parens > 0 && is_name(a) && is_word(t)) return "between two parameters stands a comma"
    if (t == "{" && n == 2) return "behind the name of a method stand parentheses, also without parameters"
    if (n > 1 && (t == "}" || row_of[i] > row_of[i - 1])) return "a ; is missing before this"
    if (n > 0 && !has_before(i, "=") && is_one_of(t, "public private protected static final")) return "modifiers stand before the type"
    if (is_keyword(t) && is_type(a) && !is_one_of(t, "public private protected static final"))
        return t " is a reserved word of Java, and no name"
    return ""
}
function class_name(i,    k, name, open) {
    open = 0
    for (k = 1; k < i; k++) {
        if (token[k] == "class" && open == 0) name = token[k + 1]
        open += (token[k] == "{") - (token[k] == "}")
    }
    return name
}
# Declarations, assignments and increments.
function java_assign(i, t, a, b) {
    if (t == "," && parens == 0 && i > first) return "each local has a declaration of its own, with its value"
    if (t == "==" && i == first + 2 && is_type(b)) return "a declaration has one =; two compare"
    if (depth > 1 && i == first + 2 + (token[first] == "final") && is_type(b) && is_name(a) && t != "(")
        return "a local is declared with its value: " b " " a " = ..;"
    if (is_one_of(t, "++ --")) {
        if (tok(i - 2) == "." ) return "a field of another object cannot be changed: call a method of it"
        if (a == ")") return "a variable or an own field is counted, nothing else"
        return ends_value(a) ? t " is a statement of its own, and stands in no expression" : ""
    }
    if (!is_one_of(t, "= += -= *= /= %=")) return ""
    if (is_one_of(token[first], "if while") && parens > 0) return "an assignment is no value: == compares"
    if (has_before(i, "= += -= *= /= %=")) return "an assignment is no value: write it as a statement before"
    if (b == "." && tok(i - 3) != "this" || b == "." && tok(i - 4) == ".") return "a field of another object cannot be assigned: call a method of it"
    if (ends_value(a) && !is_name(a)) return "a variable or an own field is assigned, nothing else"
    return ""
}
# What values lack.
function java_value(i, t, a, b,    operators) {
    operators = "= += -= *= /= %= + - * / % == != < <= > >= && || !"
    if (b == "new" && t == ";" || b == "new" && t == ")") return "behind new " a " stand parentheses: new " a "()"
    if (a == "(" && tok(i - 3) == "new") return "there are no constructors, so new has no arguments: hand the value to a method"
    if (a == "new") return "behind new stands the name of a class with a typestate"
    if (a == "(" && is_one_of(t, "int boolean")) return "there are no casts, and int is the one type of numbers"
    if (t == "2147483648") return "2147483648 is no int; behind an operator its negative is written + -2147483648"
    if (a == "\"\"" && is_text(t)) return "a text stands in one line, between one quote and one"
    if (t == "{" && is_one_of(a, "= , (")) return "there are no arrays and no lists of values"
    if (t == "+" && !ends_value(a)) return "no + stands before a value; += adds to a variable"
    if (is_text(t) && is_text(a)) return "texts are put together by +"
    if (is_one_of(t, "; ) ,") && is_one_of(a, operators " , (")) return "a value is missing between " a " and " t
    if (is_keyword(t) && is_one_of(a, operators " , return")) return t " begins no value"
    return ""
}
# The parts of switch, if and loops.
function java_control(i, t, a, b) {
    if (b == "case" && t == "." ) return "a case has the constant alone, without its enum"
    if (b == "case" && t == ",") return "each constant has a case of its own: case " a ": case .."
    if ((b == "case" || a == "default") && t == "-") return "behind a case stands a colon, and at the end of its statements a break"
    if (a == "case") return "a switch is over an enum, and a case a constant of it: compare numbers and texts by if"
    if (a == "{" && token_of_brace(i) == "switch") return "a switch begins with a case or default"
    if (t == "case" || t == "default") return "a case stands in the braces of a switch"
    if (is_one_of(a, "if while switch") && t != "(") return "behind " a " stand parentheses"
    if (t == "else" && a == ")") return "a statement is missing before else"
    if (t == "else") return "the if of this else has ended before it: is there a ; or a } too many?"
    if (a == ":" && t == "{" && is_name(b)) return "a label stands on a loop alone"
    if (is_one_of(t, "{ ; }") && parens > 0) return "a ) is missing before this"
    return ""
}
# The word before the parentheses before the brace that is the token before i.
function token_of_brace(i,    k, open) {
    open = 0
    for (k = i - 2; k > 0; k--) {
        open += (token[k] == ")") - (token[k] == "(")
        if (open == 0) return tok(k - 1)
    }
    return ""
}
function java_statement(i, t, a, b) {
    if (i == first && is_one_of(t, "public private protected static")) return "a local has no modifier but final: is a } missing before this?"
    if (i == first && t == "void") return "a method stands in the class itself: is a } missing before it?"
    if (i == first && is_one_of(t, "class enum import package")) return "this stands outside of methods: is a } missing before it?"
    if (t == "(" && i == first + 2 && is_type(b)) return "a method stands in the class itself: is a } missing before it?"
    if (is_keyword(t) && is_type(a) && i == first + 1) return t " is a reserved word of Java, and no name"
    if (is_one_of(a, "return break continue") && (is_keyword(t) || is_number(t) || t == "}")) return "a ; is missing behind " a
    if (t == ";" && ends_value(a) || i == first + 1 && is_one_of(t, "+ - * / % == != > <= >= && ||"))
        return "a value alone is no statement: a call, new, an assignment or a declaration is one"
    if (parens == 0 && ends_value(a) && (t == "}" || is_word(t) || row_of[i] > row_of[i - 1])) return "a ; is missing before this"
    return ""
}
function java_rest(i, t, a) {
    if (depth < 2 && !has_before(i, "=")) return "in a class stand fields, TYPE NAME = VALUE; and methods, TYPE NAME(PARAMETERS) { STATEMENTS }"
    if (i == first) return t " begins no statement"
    if (ends_value(a)) return "behind " a " stands an operator, a . with a method, or what ends it: ; ) or ,"
    return "here stands a value: a variable, a number, a text, true, false, null, this, a call, new C() or ( .. )"
}
function java_syntax(i,    t, a, b, said) {
    t = tok(i); a = tok(i - 1); b = tok(i - 2)
    look_around(i)
    if (i >= total && depth + (t == "{") - (t == "}") > 0) return "the file ends here, and a { has no }"
    said = java_sign(i, t, a)
    if (said == "") said = java_top(i, t, a)
    if (said == "" && depth == 1) said = java_member(i, t, a)
    if (said == "" && depth > 1) said = java_control(i, t, a, b)
    if (said == "") said = java_assign(i, t, a, b)
    if (said == "") said = java_value(i, t, a, b)
    if (said == "" && depth > 1) said = java_statement(i, t, a, b)
    return said == "" ? java_rest(i, t, a) : said
}

# Scribble.

function is_reserved(word) {
    return is_one_of(word, "module type as from to at local global protocol role self choice or rec continue do")
}
function scribble_header(i, t, a, global) {
    if (t == "" && depth > 0) return "the file ends here, and a { has no }"
    if (t == "}") return "this } closes nothing: one too many stands before it"
    if (has_before(i, "module") && !has_before(i, "local global")) return "a ; is missing behind the name of the module"
    if (token[first] == "type") return "a type is declared as type <java> \"java.lang.Integer\" from \"rt.jar\" as Int;"
    if (global && t == "at") return "a global protocol is of no role: global protocol P(role A, role B) { .. }"
    if (global && i > 1 && a == "}") return "a file has one global protocol"
    if (a == "(" && t == ")") return "the roles are missing: (role A, role B)"
    if (is_word(t) && !is_reserved(t) && is_one_of(a, "( ,")) return "before each role stands the word role"
    if (!global && t == ")" && !has_before(i, "at self")) return "the role itself is missing: local protocol P at A(role A, role B)"
    if (a == "," && t == ")") return "a role is missing behind the comma"
    if (parens > 0 && t == "role") return "between two roles stands a comma"
    if (t == "self") return "one entry is of the role itself, and no other"
    if (t == "(" || t == "{" && !has_before(i, "(")) return "behind the name stand the roles: (role A, role B)"
    if (has_before(i, ")")) return "behind the roles stand braces with the statements"
    if (is_one_of(a, "protocol at role self") && is_reserved(t)) return "here stands a name, and " t " is a reserved word"
    return global ? "a file begins with global protocol P(role A, role B) { .. }" : \
        "a protocol begins with local protocol P at A(role A, role B) { .. }"
}
# From a message's parentheses on.
function scribble_message(i, t, a, b, global) {
    if (parens > 0 && is_word(a) && is_word(t)) return "what a message carries is a type alone, without a name"
    if (parens > 0 && is_text(t)) return "what a message carries is a type, as int, boolean or String"
    if (parens > 0 && is_one_of(a, "( ,")) return a == "," ? "a type is missing behind the comma" : "here stands a type, or )"
    if (is_one_of(t, "to from") && i == first + 1) return "a message has parentheses, also where it carries nothing: " a "()"
    if (is_one_of(a, "to from") && is_reserved(t)) return "here stands the name of the other role, and " t " is a reserved word"
    if (is_one_of(a, "to from")) return "behind " a " stands the name of a role"
    if (t == "," && is_one_of(b, "to")) return "a message has one receiver: write it once for each"
    if (global && a == ")") return "in a global protocol a message says from whom and to whom: hi() from A to B;"
    if (global && t == ";" && b == "from") return "the receiver is missing: from " a " to B;"
    if (is_one_of(t, "to from") && is_one_of(b, "to from")) return "a local protocol names the other role alone: hi() to B; or hi() from B;"
    if (a == ")" && is_one_of(t, "; }")) return "a message says where it goes: to B; or from B;"
    if (a == ")") return "behind the parentheses of a message stands to or from"
    return ""
}
function scribble_statement(i, t, a, b, global,    said) {
    if (token[first] == "do" && i > first) return "a do names a protocol and all roles, in the order of the header: do P(A, B);"
    if (a == "choice" || b == "choice" && a == "at") return "a choice names the role that chooses: choice at A { .. } or { .. }"
    if (a == "rec") return "a rec has a name: rec X { .. }"
    if (a == "or" || has_before(i, "choice rec") && t != ";") return "the statements of a branch and of a rec stand in braces"
    if (a == "continue") return "continue names the rec that it leads to: continue X;"
    if (t == "{" && a == "}") return "between two branches stands or"
    if (t == "or") return "or stands behind a branch of a choice"
    if (is_one_of(b, "to from continue") && is_word(a) && (t == "}" || t == "" || row_of[i] > row_of[i - 1] || is_word(t) && !is_reserved(t)))
        return "a ; is missing before this"
    said = scribble_message(i, t, a, b, global)
    if (said != "") return said
    if (i == first && t == "") return "the file ends here, and a { has no }"
    if (i == first && is_reserved(t)) return t " is a reserved word, and no name of a message"
    if (i == first + 1) return "a message is written " a "(TYPE) to B; there are choice, rec, continue and do beside it"
    return "here stands a message, choice, rec, continue or do"
}
function scribble_syntax(i,    global, k) {
    for (k = 1; k <= total; k++) if (token[k] == "global") global = 1
    look_around(i)
    return depth == 0 || i > total && depth > 0 && tok(i - 1) == "}" ? scribble_header(i, tok(i), tok(i - 1), global) : \
        scribble_statement(i, tok(i), tok(i - 1), tok(i - 2), global)
}

# Typestates.

function typestate_outside(t, a, i) {
    if (t == "") return depth > 0 ? "the file ends here, and a { has no }" : "a file is typestate P { STATES }"
    if (depth > 0) return "a state is written S = { METHODS }, with nothing before it and nothing between two"
    if (t == "}") return "this } closes nothing: one too many stands before it"
    if (has_before(i, "package import")) return "here stands a path, names with . between, and behind it a ;"
    if (is_one_of("}", a)) return "a file has one typestate"
    return "a file is typestate P { STATES }"
}
function typestate_answers(i, t, a, b) {
    if (t == ">" && is_one_of(a, "< ,") || a == "<") return "here stands a label with its state: <YES: S, NO: end>"
    if (t == ">" && is_one_of(b, "< ,")) return "each label leads to a state: <" a ": S>"
    if (is_word(a) && is_word(t)) return "between two labels stands a comma"
    if (t == "<") return "a label leads to one state"
    return "answers are written <YES: S, NO: end>"
}
function typestate_method(i, t, a, b) {
    if (parens > 0 && t == "void") return "void is no type of a parameter: a method without parameters has ()"
    if (parens > 0 && is_word(a)) return is_word(t) ? "a parameter is its type alone, without a name" : "behind a type stands , or )"
    if (parens > 0) return "here stands a type: int, boolean, String or a name"
    if (a == ":" && b == "drop") return "drop: end marks a state in which an object may be left; a method has a type and () before the colon"
    if (a == "drop") return "the mark of a state is drop: end"
    if (t == ";") return "between two entries of a state stands a comma, and no ;"
    if (a == ")") return "behind the parentheses stand a colon and the state to which the method leads: m(): S"
    if (a == ":") return "here stands a state, end, or answers: <YES: S, NO: end>"
    if (t == "<") return "there are no generics: a type is void, int, boolean, String or a name"
    if (t == "(" ) return "a method has the type of its result before its name: void " a "(): S"
    if (is_word(a) && is_one_of(t, ": } ,") && is_word(b)) return "behind the name of a method stand parentheses: " a "()"
    if (tok(i - 2) == ":" || a == ">") return "between two entries of a state stands a comma"
    if (is_word(t) && is_word(a) && is_word(b)) return "a method has no modifiers: the type of its result, its name, its parameters"
    if (is_one_of(t, "typestate package import")) return "here stands a name, and " t " is a reserved word"
    return "in a state stand methods with commas between, TYPE NAME(TYPES): STATE, and drop: end"
}
# Whether the last `<` before the token i has no `>` behind it and stands behind a colon.
function in_answers(i,    k) {
    for (k = i - 1; k > 0 && !is_one_of(token[k], "{ } > ;"); k--) if (token[k] == "<") return token[k - 1] == ":"
    return 0
}
function typestate_syntax(i) {
    look_around(i)
    if (depth < 2 || tok(i) == "") return typestate_outside(tok(i), tok(i - 1), i)
    if (in_answers(i)) return typestate_answers(i, tok(i), tok(i - 1), tok(i - 2))
    return typestate_method(i, tok(i), tok(i - 1), tok(i - 2))
}

# Names.

# The last token before i, or else the first behind it, at which the object of a variable is handed on; 0 for none.
function handed_on(i, name,    k, found) {
    for (k = 1; k <= total; k++) {
        if (token[k] == name && is_handed(k)) {
            if (k < i) found = k
            else if (!found && k > i) return k
        }
    }
    return found + 0
}
function is_handed(k,    word) {
    if (token[k - 1] == "return") return token[k + 1] == ";"
    if (token[k - 1] == "=" || token[k - 1] == "." && token[k - 2] == "this" && token[k - 3] == "=") return token[k + 1] == ";"
    if (!is_one_of(token[k - 1], "( ,") || !is_one_of(token[k + 1], ", )")) return 0
    while (k > 0 && token[k] != "(") k--
    word = token[k - 1]
    return is_name(word) && !is_one_of(token[k - 2], "void int boolean String new") && !(is_name(token[k - 2]) && token[k - 2] != "")
}
# The last call of a method of `answers` on a variable before a place, where it is no value of a switch; "" where there is none.
function outside_switch(file, row, col, name, answers,    i, k, found) {
    tokenize(file)
    i = token_at(row, col)
    for (k = 1; k < i; k++)
        if (token[k] == name && token[k + 1] == "." && is_one_of(token[k + 2], answers)) found = token[k - 2] == "switch" ? 0 : k
    if (!found) return ""
    return "      line " row_of[found] " takes what " name "." token[found + 2] "() answers outside of a switch: a label is followed by switch (" name "." \
        token[found + 2] "()) alone"
}
function known_name(name) {
    if (name == "System") return "of System there is System.out.println(VALUE) alone, with one value and as a statement"
    if (name == "args") return "the words of the command cannot be read"
    if (name == "length") return "a text has no length: of texts there are +, equals and concat"
    return ""
}
function known_class(name) {
    if (is_one_of(name, "Integer Long Short Byte long short byte")) return "numbers are of the type int"
    if (is_one_of(name, "Boolean bool")) return "truth values are of the type boolean"
    if (is_one_of(name, "string str")) return "texts are of the type String"
    if (is_one_of(name, "var let auto")) return "a declaration has its type: int, boolean, String, an enum or a class with a typestate"
    if (is_one_of(name, "Object Scanner List ArrayList Map HashMap Set Random Thread Exception"))
        return "the classes of Java are not there, but String, System.out.println and those of the command"
    return ""
}

# What stands in place of a word or a sign that is not supported; behind the sentence, so it begins with a ;.
function in_place_of(file, word) {
    if (file ~ /\.scr$/) {
        if (word == "global") return "; mungo project reads it, and writes what each role does"
        if (word == "par") return "; write the messages in one order"
        if (word == "do") return "; a global protocol repeats by rec and continue"
        return is_one_of(word, "local self") ? "; project reads a global protocol, the other commands local ones" : ""
    }
    if (word == "for") return "; a for is a while: int i = 0; while (i < n) { ..; i++; }"
    if (word == "?") return "; a value that depends on a condition is assigned by an if"
    if (is_one_of(word, "& | ^ ~")) return "; of truth values there are &&, || and !"
    if (is_one_of(word, "try catch finally throw throws")) return "; what failed is an answer: the constant of an enum"
    if (is_one_of(word, "byte short long")) return "; numbers are of the type int"
    if (is_one_of(word, "float double")) return "; numbers are whole: cents, or thousandths"
    if (word == "char") return "; a letter is a text, of the type String"
    if (is_one_of(word, "extends implements interface abstract super")) return "; there is no inheritance"
    return ""
}
# At a byte at which no token begins.
function byte_hint(file, row, col,    text, byte) {
    text = line_of(file, row); byte = substr(text, col, 1)
    if (byte == "\047" && file ~ /\.java$/) return "there are no characters: a text stands between double quotes, and has the type String"
    if (byte == "\\" && file ~ /\.java$/) return substr(text, col + 1, 1) == "u" ? "Java reads \\u as an escape of Unicode, in comments too: write \\\\u" : ""
    if (file ~ /\.java$/) return ""
    if (byte == "#") return "a comment begins with //, or stands between /* and */"
    if (byte == "[") return "there are no arrays: a type is int, boolean, String or a declared name"
    if (byte == ":" && file ~ /\.scr$/) return "what a message carries is a type alone, without a name"
    if (substr(text, col, 2) == "->" && file ~ /\.protocol$/) return "the state to which a method leads stands behind a colon: m(): S"
    return byte == "\"" && file ~ /\.protocol$/ ? "a typestate has no texts: names stand without quotes" : ""
}
# Of a choice or a loop of a protocol, where the sentence speaks of another kind of it.
function protocol_hint(row, col, fault, name,    k) {
    if (fault == "Unguarded") return tok(token_at(row, col)) == "do" ? "the protocols go round to " name " without a message" : ""
    for (k = 1; k <= total; k++) if (token[k] == "global")
        return "in a global protocol the branches begin with messages from the role that chooses, all to one role"
    return ""
}

# What is said of FAULT NAME at a place of a file, in place of the sentence or behind it.
function hint_of(file, row, col, fault, name,    at) {
    if (fault == "UnknownName") return known_name(name)
    if (fault == "UnknownClass") return known_class(name)
    if (fault == "Unsupported") return in_place_of(file, name)
    if (fault == "BadByte") return byte_hint(file, row, col)
    if (fault == "LeftOpen" && name ~ /^value /) return "what this gives is an object in " substr(name, 7) ", and nothing takes it: assign it"
    if (!is_one_of(fault, "Syntax UseMoved MixedChoice Unguarded")) return ""
    if (!is_file(file)) return ""
    tokenize(file)
    if (total == 0) return fault == "Syntax" ? "the file has nothing in it" : ""
    if (is_one_of(fault, "MixedChoice Unguarded")) return protocol_hint(row, col, fault, name)
    at = token_at(row, col)
    if (fault == "UseMoved") {
        at = handed_on(at, name)
        return at == 0 ? "" : "line " row_of[at] " hands on the object of " name ": go on with what has it now, or take it back as a result"
    }
    if (file ~ /\.java$/) return java_syntax(at)
    if (file ~ /\.scr$/) return scribble_syntax(at)
    return file ~ /\.protocol$/ ? typestate_syntax(at) : ""
}
