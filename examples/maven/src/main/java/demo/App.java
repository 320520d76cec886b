package demo;

import demo.mail.Delivery;
import java.io.IOException;
import java.net.InetSocketAddress;
import java.util.Collections;
import mungo.lib.Lines;
import mungo.lib.Session;

/** An application, of all of Java: calls the checked class, each time over a connection of its own. */
public final class App {
    private App() {}

    /**
     * Delivers a text, and tells how the role has ended, and the code by which the server refused the recipient: 0 for
     * none.
     */
    static String deliver(String host, int port, String to, String text) throws IOException {
        int[] code = {-1};
        String ending = Session.play("C", Collections.singletonMap("S", new Lines("mail.wire")),
                Collections.singletonMap("S", new InetSocketAddress(host, port)),
                () -> code[0] = Delivery.deliver("ann@client.example", to, text));
        return ending + " " + code[0];
    }

    /** Delivers one text to three recipients by the server at HOST PORT. */
    public static void main(String[] words) throws IOException {
        for (String to : new String[] {"bob@mail.example", "eve@other.example", "bob@mail.example>\r\nRCPT TO:<eve"}) {
            System.out.println(deliver(words[0], Integer.parseInt(words[1]), to, "Hello!\n.\nQUIT\n..dots\n"));
        }
    }
}
