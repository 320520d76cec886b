// Says two things, and prints what comes back.
class AMain {
    public static void main(String[] args) {
        ARole a = new ARole();
        int i = 1;
        while (i <= 2) {
            a.send_sayStringToR("word " + i);
            System.out.println(a.receive_heardStringFromR());
            i++;
        }
        a.send_leaveToR();
    }
}
