package mungo.lib;

import java.io.Closeable;
import java.io.IOException;
import java.util.Map;

/** Where the sessions come from of a role that serves whoever comes, by {@link Session#serve}. Nothing here is proved. */
public interface Wires extends Closeable {
    /**
     * Begins to take sessions for the role, so many at once at most.
     *
     * @throws IOException where none can come, as the address is taken
     */
    void open(String role, int most) throws IOException;

    /**
     * The wires of the next session, by the names of the peers; null where none has come at the moment `deadline` of
     * System.nanoTime. A session is over when one of its wires is closed.
     *
     * @throws IOException where no further one comes, or the thread is interrupted
     */
    Map<String, Wire> next(long deadline) throws IOException;

    /** How many sessions wait to be taken, as far as it is known, or -1. */
    int waiting();

    /** Takes no further session. Those that have begun go on. */
    @Override
    void close();
}
