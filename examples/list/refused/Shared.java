// Hands one node to two others: refused.
class Shared {
    public static void main(String[] args) {
        Node a = new Node();
        a.link(0, null);
        Node b = new Node();
        b.link(1, a);
        Node c = new Node();
        c.link(2, a);
        b.close();
        c.close();
    }
}
