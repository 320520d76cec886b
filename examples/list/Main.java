// Makes a list of three nodes, the last one made at its front, and closes it.
class Main {
    public static void main(String[] args) {
        Node a = null;
        int i = 0;
        while (i < 3) {
            Node b = new Node();
            b.link(i, a);
            a = b;
            i++;
        }
        if (a != null) {
            a.close();
        }
    }
}
