import java.io.ByteArrayOutputStream;
import java.net.URI;
import java.util.concurrent.Callable;
import net.sf.saxon.s9api.Processor;
import net.sf.saxon.s9api.SaxonApiException;
import net.sf.saxon.s9api.Serializer;
import net.sf.saxon.s9api.XQueryCompiler;
import net.sf.saxon.s9api.XQueryEvaluator;
import net.sf.saxon.s9api.XdmNode;

/** Saxon-HE over the document that a query makes: every `doc` is that one. */
final class SaxonPeer extends Peer {
    private final Processor processor = new Processor(false);
    private final XQueryCompiler compiler = processor.newXQueryCompiler();
    private final XdmNode document;

    private SaxonPeer(String make) throws SaxonApiException {
        compiler.setBaseURI(URI.create("memory:/"));
        document = (XdmNode) compiler.compile(make).load().evaluateSingle();
    }

    @Override
    Callable<byte[]> read(String query) throws SaxonApiException {
        var evaluator = compiler.compile(query).load();
        return () -> run(evaluator);
    }

    private byte[] run(XQueryEvaluator evaluator) throws SaxonApiException {
        evaluator.setURIResolver((name, base) -> document.asSource());
        var text = new ByteArrayOutputStream();
        var serializer = processor.newSerializer(text);
        serializer.setOutputProperty(Serializer.Property.OMIT_XML_DECLARATION, "yes");
        serializer.setOutputProperty(Serializer.Property.INDENT, "no");
        serializer.setOutputProperty(Serializer.Property.ITEM_SEPARATOR, "\n");
        evaluator.run(serializer);
        return text.toByteArray();
    }

    public static void main(String[] words) throws Exception {
        new SaxonPeer(words[0]).serve();
    }
}
