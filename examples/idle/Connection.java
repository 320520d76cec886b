enum Opened { YES, NO }

@Typestate("ConnectionProtocol")
class Connection {
    int used = 0;

    public Opened open() {
        System.out.println("opened");
        return Opened.YES;
    }

    public void use(int n) {
        used = used + 1;
        System.out.println("use " + used + ": " + n);
    }

    public void done() {
        System.out.println("done");
    }

    public void close() {
        System.out.println("closed");
    }
}
