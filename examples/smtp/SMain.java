// The mail server: knows one recipient, and numbers the mails it takes. A static method for each part of the protocol.
class SMain {
    static SRole recipients(SRole s) {
        loop: do {
            switch (s.receive_SChoice2LabelFromC()) {
                case rcpt:
                    if (s.receive_rcptStringFromC().equals("bob@mail.example")) {
                        s.send_acceptedToC();
                    } else {
                        s.send_rejectedIntToC(550);
                    }
                    continue loop;
                case data:
                    s.receive_dataFromC();
                    break loop;
            }
        } while (true);
        return s;
    }

    static SRole lines(SRole s) {
        loop: do {
            switch (s.receive_SChoice3LabelFromC()) {
                case line:
                    System.out.println("| " + s.receive_lineStringFromC());
                    continue loop;
                case dot:
                    s.receive_dotFromC();
                    break loop;
            }
        } while (true);
        return s;
    }

    public static void main(String[] args) {
        SRole s = new SRole();
        int mails = 0;
        s.send_readyStringToC("mail.example");
        System.out.println("hello " + s.receive_heloStringFromC());
        s.send_welcomeToC();
        loop: do {
            switch (s.receive_SChoice1LabelFromC()) {
                case mail:
                    System.out.println("mail from " + s.receive_mailStringFromC());
                    s.send_okToC();
                    s = recipients(s);
                    s = lines(s);
                    mails++;
                    s.send_queuedIntToC(mails);
                    continue loop;
                case quit:
                    s.receive_quitFromC();
                    s.send_closingToC();
                    break loop;
            }
        } while (true);
        System.out.println("mails " + mails);
    }
}
