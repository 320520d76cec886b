# A part of tools/test-tools: what javac and a Java virtual machine say of programs that mungo takes, as the pages tell it.
# shellcheck shell=bash disable=SC2154

jdk=$room/jdk
mkdir -p "$jdk"
# The class W, with a typestate that has one method, and what is to stand in it beside.
class_w() {
    printf 'typestate WProtocol {\n    S = { %s: end }\n}\n' "$1" >"$jdk/WProtocol.protocol"
    printf '@Typestate("WProtocol")\nclass W {\n    public %s { }\n    %s\n}\n' "$1" "${2-}" >"$jdk/W.java"
    printf 'class Main {\n    public static void main(String[] args) {\n        W w = new W();\n        w.%s;\n    }\n}\n' "${1#void }" >"$jdk/Main.java"
    rm -rf "$jdk/out" && mkdir "$jdk/out"
}
class_w 'void go()'
sed -i '4s/.*/    void wait() { } \/* void notify() { }\n    void notify() { } *\/ int getClass ( ) { return 1; }\n    int toString() { String _ = "int hashCode() {"; return 1; }\n    private W finalize()\n    { return null; }\n    void waits() { } int hashCode() { return 1; }/' "$jdk/W.java"
gives "check, names of Java's Object" 0 env -C "$jdk" "$top/tools/check" WProtocol.protocol W.java <<'TEXT'
result W.finalize = null
      W.java:4: wait() is final in the class Object of Java: javac refuses it, and where a typestate names it no Java virtual machine loads the class
      W.java:5: getClass() is final in the class Object of Java: javac refuses it
      W.java:6: javac takes no name _
      W.java:6: toString() has another result in the class Object of Java: javac refuses it
      W.java:7: finalize() is that of the class Object of Java: javac wants it public and void, and a virtual machine may call it
TEXT

if command -v javac >/dev/null && command -v java >/dev/null; then
    # What mungo compiles and verifies, and no virtual machine loads.
    for method in wait notify notifyAll; do
        class_w "void $method()"
        (cd "$jdk" && "$MUNGO" compile --out out WProtocol.protocol W.java Main.java && "$MUNGO" verify out/Main.class out/W.class) >/dev/null &&
            timeout 60 java -cp "$jdk/out" Main 2>&1 | grep -q "overrides final method java.lang.Object.$method()V"
        count "java: no class with the method $method" $?
    done
    # Members beside the method of the typestate, and whole sources: check takes them, and javac says this.
    cp java/Typestate.java "$jdk"
    said_by_javac() {
        (cd "$jdk" && "$MUNGO" check WProtocol.protocol W.java Main.java >/dev/null) &&
            timeout 60 javac -d "$jdk/out" "$jdk"/{W,Main,Typestate}.java >"$jdk/said" 2>&1
        [ $? -eq 1 ]
        count "javac refuses, and check doesn't: $1" $?
    }
    class_w 'void go()' 'private void wait() { } static int notify() { return 1; } void notifyAll() { }
        public W getClass() { return null; } void finalize() { } public int toString() { return 1; }
        public boolean hashCode() { return true; } public int clone() { return 1; }'
    said_by_javac "methods of Object"
    for method in wait notify notifyAll getClass finalize toString hashCode clone; do
        grep -qF "error: $method() in W cannot override $method() in Object" "$jdk/said"
        count "javac: $method" $?
    done
    while IFS='|' read -r member said; do
        class_w 'void go()' "$member"
        said_by_javac "$member" && grep -qF "$said" "$jdk/said"
        count "javac: $said" $?
    done <<'TEXT'
void _() { }|'_' is a keyword
public public void more() { }|repeated modifier
public private void more() { }|illegal combination of modifiers
} enum L { A, B } class X { static void f(L l) { switch (l) { case A: int k = 1; break; case B: int k = 2; break; } }|already defined
} class var {|'var' not allowed here
} class record {|'record' not allowed here
} class X { static void yield() { } static void f() { yield(); }|invalid use of a restricted identifier 'yield'
TEXT
    class_w 'void go()' 'public void wait(int a) { } public void finalize() { } public W clone() { return null; }'
    timeout 60 javac -d "$jdk/out" "$jdk"/{W,Main,Typestate}.java 2>/dev/null
    count "javac: names of Object that it takes" $?
fi

# Class files that a compiler doesn't write, each with a method `main` and a constructor.
if command -v java >/dev/null && command -v python3 >/dev/null; then
    cat >"$jdk/write.py" <<'TEXT'
import struct
import sys

name, method, flags, code = sys.argv[1], sys.argv[2], int(sys.argv[3], 16), bytes.fromhex(sys.argv[4])
pool = []


def entry(data):
    if data not in pool:
        pool.append(data)
    return struct.pack(">H", pool.index(data) + 1)


def text(word):
    return entry(b"\x01" + struct.pack(">H", len(word)) + word.encode())


def body(flags, name, descriptor, code):
    code = struct.pack(">HHI", 2, 2, len(code)) + code + bytes(4)
    head = struct.pack(">H", flags) + text(name) + text(descriptor) + struct.pack(">H", 1) + text("Code")
    return head + struct.pack(">I", len(code)) + code


this, above = entry(b"\x07" + text(name)), entry(b"\x07" + text("java/lang/Object"))
made = entry(b"\x0a" + above + entry(b"\x0c" + text("<init>") + text("()V")))
bodies = [body(flags, "<init>", "()V", b"\x2a\xb7" + made + b"\xb1"), body(9, "main", "([Ljava/lang/String;)V", code)]
bodies += [body(9, method, "()V", b"\xb1")] if method else []
head = struct.pack(">IHHH", 0xCAFEBABE, 0, 49, len(pool) + 1) + b"".join(pool) + b"\0\x21" + this + above
sys.stdout.buffer.write(head + struct.pack(">HHH", 0, 0, len(bodies)) + b"".join(bodies) + bytes(2))
TEXT
    cat >"$jdk/Load.java" <<'TEXT'
class Load extends ClassLoader {
    public static void main(String[] words) throws Exception {
        byte[] bytes = System.in.readAllBytes();
        try {
            System.out.println(Class.forName(new Load().defineClass(null, bytes, 0, bytes.length).getName(), true, Load.class.getClassLoader()));
        } catch (Throwable thrown) {
            System.out.println(thrown);
        }
    }
}
TEXT
    # Wants the class file to be verified by mungo, and a virtual machine to say this: WANTED, and the words of write.py.
    loads() {
        local wanted=$1
        shift
        python3 "$jdk/write.py" "$@" >"$jdk/A.class" && "$MUNGO" verify "$jdk/A.class" >/dev/null &&
            timeout 60 java "$jdk/Load.java" <"$jdk/A.class" 2>&1 | grep -qF "$wanted"
        count "java: $wanted: $*" $?
    }
    loads 'Illegal class name "Ma[n"' 'Ma[n' '' 1 b1
    loads 'Illegal class name "Ma;n"' 'Ma;n' '' 1 b1
    loads 'Illegal method name "a<b"' A 'a<b' 1 b1
    loads 'Illegal method name "a.b"' A 'a.b' 1 b1
    loads 'has illegal modifiers: 0x21' A '' 21 b1
    loads 'has illegal modifiers: 0x11' A '' 11 b1
    python3 "$jdk/write.py" U '' 1 b11d57b1 >"$jdk/U.class" && "$MUNGO" verify "$jdk/U.class" >/dev/null &&
        timeout 60 java -cp "$jdk" U 2>&1 | grep -q 'Illegal local variable number'
    count "java: numbers of locals in code that is never reached" $?
    python3 "$jdk/write.py" U '' 1 b157acb1 >"$jdk/U.class" && "$MUNGO" verify "$jdk/U.class" >/dev/null && timeout 60 java -cp "$jdk" U
    count "java: other code that is never reached" $?
fi
