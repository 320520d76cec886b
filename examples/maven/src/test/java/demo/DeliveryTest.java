package demo;

import static org.junit.Assert.assertEquals;

import java.io.BufferedReader;
import java.io.IOException;
import java.io.InputStreamReader;
import java.net.InetAddress;
import java.net.ServerSocket;
import java.net.Socket;
import java.nio.charset.StandardCharsets;
import org.junit.Test;

/** Delivers to a server that says what a test gives it: a line at first, and one for each line that it hears. */
public class DeliveryTest {
    private static String delivered(String to, String... lines) throws IOException {
        try (ServerSocket door = new ServerSocket(0, 1, InetAddress.getLoopbackAddress())) {
            Thread server = new Thread(() -> serve(door, lines));
            server.start();
            return App.deliver("127.0.0.1", door.getLocalPort(), to, "Hello!\n");
        }
    }

    private static void serve(ServerSocket door, String[] lines) {
        try (Socket client = door.accept()) {
            BufferedReader in = new BufferedReader(
                    new InputStreamReader(client.getInputStream(), StandardCharsets.UTF_8));
            for (String line : lines) {
                client.getOutputStream().write((line + "\r\n").getBytes(StandardCharsets.UTF_8));
                if (in.readLine() == null) {
                    return;
                }
            }
        } catch (IOException gone) {
            // the client has ended
        }
    }

    @Test
    public void anUnknownRecipientIsRejected() throws IOException {
        assertEquals("done 550",
                delivered("eve@other.example",
                        "220 mail.example", "250 hello", "250 go on", "550 no such mailbox", "221 bye"));
    }

    @Test
    public void whatTheServerShouldNotSayEndsTheRole() throws IOException {
        assertEquals("mismatch S \"999 what?\" -1",
                delivered("bob@mail.example", "220 mail.example", "250 hello", "250 go on", "999 what?"));
    }

    @Test
    public void aServerThatEndsEndsTheRole() throws IOException {
        assertEquals("waits S -1", delivered("bob@mail.example"));
    }

    @Test
    public void aRecipientCannotBeACommand() throws IOException {
        assertEquals("unfit S recipient -1",
                delivered("bob@mail.example>\r\nRCPT TO:<eve",
                        "220 mail.example", "250 hello", "250 go on", "250 accepted"));
    }
}
