@Typestate("NodeProtocol") class Node {
  int v = 0;
  Node next;
  public void link(int k, Node n) { v = k; next = n; }
  public void close() {
    if (next != null) { next.close(); }
    System.out.println("closed " + v);
  }
}
