import java.io.ByteArrayOutputStream;
import java.nio.charset.StandardCharsets;
import java.util.concurrent.Callable;
import org.basex.core.Context;
import org.basex.core.MainOptions;
import org.basex.core.cmd.CreateDB;
import org.basex.io.serial.Serializer;
import org.basex.io.serial.SerializerOptions;
import org.basex.query.QueryProcessor;
import org.basex.query.value.Value;
import org.basex.query.value.item.Item;
import org.basex.util.options.Options.YesNo;

/**
 * BaseX over the document that a query makes: as the `nodes` that it makes, which stand for
 * `doc("lib")`, or as the database `lib`, with its indexes, in `memory` or on the `disk`.
 */
final class BaseXPeer extends Peer {
    private final Context context = new Context();
    private final SerializerOptions options = new SerializerOptions();
    private final Value nodes;

    private BaseXPeer(String kind, String make) throws Exception {
        options.set(SerializerOptions.INDENT, YesNo.NO);
        options.set(SerializerOptions.ITEM_SEPARATOR, "\n");
        // (else the blanks at both ends of texts are lost as XML is read)
        context.options.set(MainOptions.CHOP, false);
        context.options.set(MainOptions.MAINMEM, kind.equals("memory"));
        try (var processor = new QueryProcessor(make, context)) {
            if (kind.equals("nodes")) {
                nodes = processor.value();
            } else {
                nodes = null;
                var text = new String(text(processor), StandardCharsets.UTF_8);
                new CreateDB("lib", text).execute(context);
            }
        }
    }

    @Override
    Callable<byte[]> read(String query) throws Exception {
        var processor = new QueryProcessor(nodes == null ? query : onNodes(query), context);
        if (nodes != null) {
            processor.bind("lib", nodes);
        }
        processor.parse();
        return () -> {
            try (processor) {
                return text(processor);
            }
        };
    }

    private static String onNodes(String query) {
        return "declare variable $lib external; " + query.replace("doc(\"lib\")", "$lib");
    }

    private byte[] text(QueryProcessor processor) throws Exception {
        var text = new ByteArrayOutputStream();
        try (var serializer = Serializer.get(text, options)) {
            var items = processor.iter();
            for (Item item = items.next(); item != null; item = items.next()) {
                serializer.serialize(item);
            }
        }
        return text.toByteArray();
    }

    public static void main(String[] words) throws Exception {
        new BaseXPeer(words[0], words[1]).serve();
    }
}
