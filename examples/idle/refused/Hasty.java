// Leaves its connection while it is busy: refused.
class Hasty {
    public static void main(String[] args) {
        Connection line = new Connection();
        switch (line.open()) {
            case YES:
                line.use(1);
                break;
            case NO:
                break;
        }
    }
}
