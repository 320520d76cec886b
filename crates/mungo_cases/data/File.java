enum FileStatus { OK, ERROR }
enum BooleanEnum { TRUE, FALSE }
@Typestate("FileProtocol") class File {
  private int left = 0;
  public FileStatus open() { left = 2; return FileStatus.OK; }
  public BooleanEnum hasNext() {
    if (left > 0) { return BooleanEnum.TRUE; }
    return BooleanEnum.FALSE;
  }
  public void read() { System.out.println("line " + left); left--; }
  public void close() { System.out.println("closed"); }
}
