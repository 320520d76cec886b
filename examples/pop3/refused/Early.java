// A client that counts the mails before it is let in: refused.
class Early {
    public static void main(String[] args) {
        CRole c = new CRole();
        c.receive_readyFromS();
        c.send_userStringToS("bob");
        c.send_countToS();
        System.out.println(c.receive_mailsIntFromS());
        System.out.println(c.receive_bytesIntFromS());
        c.send_quitToS();
        c.receive_byeFromS();
    }
}
