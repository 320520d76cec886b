// The server: it closes its connection.
class SMain {
    public static void main(String[] args) {
        Connection line = new Connection();
        SRole s = new SRole();
        int asked = s.receive_askIntFromC();
        switch (line.open()) {
            case YES:
                line.use(asked);
                line.done();
                line.close();
                break;
            case NO:
                break;
        }
        s.send_answerIntToC(asked * 7);
    }
}
