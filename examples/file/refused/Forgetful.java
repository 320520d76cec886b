// Reads a file to its end, and forgets to close it: refused.
class Forgetful {
    public static void main(String[] args) {
        File f = new File();
        switch (f.open()) {
            case OK:
                loop: do {
                    switch (f.hasNext()) {
                        case TRUE:
                            f.read();
                            continue loop;
                        case FALSE:
                            break loop;
                    }
                } while (true);
                break;
            case ERROR:
                break;
        }
    }
}
