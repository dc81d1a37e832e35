import java.io.BufferedOutputStream;
import java.io.BufferedReader;
import java.io.InputStreamReader;
import java.io.OutputStream;
import java.lang.management.ManagementFactory;
import java.lang.management.ThreadMXBean;
import java.nio.charset.StandardCharsets;
import java.util.StringJoiner;
import java.util.concurrent.Callable;

/**
 * An engine that bench/engines.py asks. Each line of standard input is a number of runs and a query
 * on one line. The reply is a line of the nanoseconds of each run: by the clock, of reading the
 * query, and in which this thread had a processor, with strokes between; a line with the number of
 * bytes of the last result; and these bytes: nodes as XML, each item on a line of its own. Where a
 * query is refused the program ends.
 */
abstract class Peer {
    private final ThreadMXBean thread = ManagementFactory.getThreadMXBean();
    private final OutputStream out = new BufferedOutputStream(System.out);

    /** Reads a query; what this gives runs it once, to the text of its result. */
    abstract Callable<byte[]> read(String query) throws Exception;

    /** Answers until the input ends. */
    final void serve() throws Exception {
        System.setOut(System.err);
        var lines = new BufferedReader(new InputStreamReader(System.in, StandardCharsets.UTF_8));
        for (var line = lines.readLine(); line != null; line = lines.readLine()) {
            var words = line.split(" ", 2);
            reply(Integer.parseInt(words[0]), words[1]);
        }
    }

    private void reply(int runs, String query) throws Exception {
        var spent = new StringJoiner(" ");
        byte[] text = {};
        for (int run = 0; run < runs; run++) {
            text = timed(query, spent);
        }
        out.write((spent + "\n" + text.length + "\n").getBytes(StandardCharsets.UTF_8));
        out.write(text);
        out.flush();
    }

    private byte[] timed(String query, StringJoiner spent) throws Exception {
        long worked = thread.getCurrentThreadCpuTime();
        long begin = System.nanoTime();
        var plan = read(query);
        long between = System.nanoTime();
        byte[] text = plan.call();
        long end = System.nanoTime();
        worked = thread.getCurrentThreadCpuTime() - worked;
        spent.add((end - begin) + "/" + (between - begin) + "/" + worked);
        return text;
    }
}
