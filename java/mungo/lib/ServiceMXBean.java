package mungo.lib;

import java.util.Map;

/** What a role that serves has done, for JMX: the bean `mungo:type=Service,role=ROLE,number=N`. */
public interface ServiceMXBean {
    /** The role that is served. */
    String getRole();

    /** How many sessions may run at once. */
    int getMost();

    /** How many sessions have begun, those that have ended among them. */
    long getBegun();

    /** How many run. */
    int getRunning();

    /** How many wait to be taken, as far as it is known, or -1. */
    int getWaiting();

    /**
     * How many have ended, by the first words of their ending: `done`, `waits`, `mismatch`, `unfit`, `no peer`, `zero
     * divisor`, `memory`, `fault`.
     */
    Map<String, Long> getEnded();
}
