package mungo.lib;

import java.io.IOException;
import java.util.Map;

/**
 * What brings all roles of a session together, as a broker does. The setting mungo.wire names one for peers as it names
 * a {@link Wire}: `ROLE=amqp:..`, or `ROLE=CLASS:WORD` with a class that implements this. Nothing here is proved.
 */
public interface Transport {
    /**
     * The wires of a role to each other role of one session, which it plays once.
     *
     * @throws IOException with a sentence where the role has no place there
     */
    Map<String, Wire> session(String role) throws IOException;
}
