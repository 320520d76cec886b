// The client: it leaves its connection idle.
class CMain {
    public static void main(String[] args) {
        Connection line = new Connection();
        CRole c = new CRole();
        c.send_askIntToS(6);
        int answer = c.receive_answerIntFromS();
        switch (line.open()) {
            case YES:
                line.use(answer);
                line.done();
                break;
            case NO:
                break;
        }
    }
}
