// What Lucene takes to update documents by a key, in memory: bench/updates.py gives it the documents, and then the updates, a line each, as key,
// body, keyword, number and signed number between tabs. Of each commit of EACH updates, with a reader that finds them, comes a line
// `commit NANOSECONDS` of processor time, its threads that merge counted; and at times `look BYTES SEGMENTS`, of what is in use in the heap.
//
//     java -cp lucene-core.jar:lucene-analyzers-common.jar bench/peers/LuceneUpdates.java DOCUMENTS EACH LOOKS
import java.io.BufferedReader;
import java.io.InputStreamReader;
import java.lang.management.ManagementFactory;
import java.util.ArrayList;
import java.util.List;
import org.apache.lucene.analysis.core.WhitespaceAnalyzer;
import org.apache.lucene.document.Document;
import org.apache.lucene.document.Field;
import org.apache.lucene.document.LongPoint;
import org.apache.lucene.document.NumericDocValuesField;
import org.apache.lucene.document.StringField;
import org.apache.lucene.document.TextField;
import org.apache.lucene.index.DirectoryReader;
import org.apache.lucene.index.IndexWriter;
import org.apache.lucene.index.IndexWriterConfig;
import org.apache.lucene.index.Term;
import org.apache.lucene.store.ByteBuffersDirectory;

public class LuceneUpdates {
    private static final com.sun.management.OperatingSystemMXBean SYSTEM =
        (com.sun.management.OperatingSystemMXBean) ManagementFactory.getOperatingSystemMXBean();

    private static void number(Document document, String name, String text) {
        document.add(new LongPoint(name, Long.parseLong(text)));
        document.add(new NumericDocValuesField(name, Long.parseLong(text)));
    }

    private static Document document(String[] parts) {
        Document document = new Document();
        document.add(new StringField("key", parts[0], Field.Store.YES));
        document.add(new TextField("body", parts[1], Field.Store.YES));
        document.add(new StringField("tag", parts[2], Field.Store.YES));
        number(document, "price", parts[3]);
        number(document, "temp", parts[4]);
        return document;
    }

    private static void look(DirectoryReader reader) {
        System.gc();
        Runtime runtime = Runtime.getRuntime();
        System.out.println("look " + (runtime.totalMemory() - runtime.freeMemory()) + " " + reader.leaves().size());
    }

    public static void main(String[] arguments) throws Exception {
        int count = Integer.parseInt(arguments[0]);
        int each = Integer.parseInt(arguments[1]);
        int looks = Integer.parseInt(arguments[2]);
        BufferedReader in = new BufferedReader(new InputStreamReader(System.in));
        var writer = new IndexWriter(new ByteBuffersDirectory(), new IndexWriterConfig(new WhitespaceAnalyzer()));
        for (int place = 0; place < count; place++) {
            writer.addDocument(document(in.readLine().split("\t")));
        }
        writer.commit();
        DirectoryReader reader = DirectoryReader.open(writer);
        List<String[]> updates = new ArrayList<>();
        for (String line = in.readLine(); line != null; line = in.readLine()) {
            updates.add(line.split("\t"));
        }
        look(reader);
        int commits = (updates.size() + each - 1) / each;
        for (int done = 0; done < commits; done++) {
            long from = SYSTEM.getProcessCpuTime();
            for (String[] parts : updates.subList(done * each, Math.min(updates.size(), (done + 1) * each))) {
                writer.updateDocument(new Term("key", parts[0]), document(parts));
            }
            writer.commit();
            DirectoryReader newer = DirectoryReader.openIfChanged(reader);
            if (newer != null) {
                reader.close();
                reader = newer;
            }
            System.out.println("commit " + (SYSTEM.getProcessCpuTime() - from));
            if ((done + 1) % Math.max(1, commits / looks) == 0) {
                look(reader);
            }
        }
        reader.close();
        writer.close();
    }
}
