package demo.mail;

/** A client in the language that mungo checks: it plays the role C of src/main/mungo/C.scr. */
public class Delivery {
    /** Delivers a text to one recipient, and answers 0, or the code by which the server refused it. */
    public static int deliver(String from, String to, String text) {
        CRole c = new CRole();
        String server = c.receive_readyStringFromS();
        c.send_helloStringToS("client.example");
        c.send_senderStringToS(from);
        c.send_recipientStringToS(to);
        int code = 0;
        switch (c.receive_CChoice1LabelFromS()) {
            case accepted:
                c.receive_acceptedFromS();
                c.send_textStringToS("To: " + to + "\nX-Server: " + server + "\n\n" + text);
                String number = c.receive_queuedStringFromS();
                System.out.println("queued: " + number);
                c.send_quitToS();
                break;
            case rejected:
                code = c.receive_rejectedIntFromS();
                System.out.println("rejected: " + c.receive_reasonStringFromS());
                c.send_quitToS();
                break;
        }
        return code;
    }
}
