@Typestate("CounterProtocol") class Counter {
  int n = 0;
  public void tick() { n = n + 1; System.out.println(n); }
  public void add(int k) { n = n + k; }
  public void stop() { System.out.println("stop " + n); }
}
