// What Lucene takes to build, strike, merge and commit in memory: bench/commits.py gives it documents, a line each, as body, keyword and number
// between tabs. Nanoseconds by the clock come out: of each of COMMITS commits of one document, and then, without strikes and with them,
// of the build of 16 segments, of a delete of the keyword t3 with its commit, and of the merge.
//
//     java -cp lucene-core.jar:lucene-analyzers-common.jar bench/peers/LuceneWriting.java COMMITS DOCUMENTS
import java.io.BufferedReader;
import java.io.InputStreamReader;
import java.util.ArrayList;
import java.util.List;
import org.apache.lucene.analysis.core.WhitespaceAnalyzer;
import org.apache.lucene.document.Document;
import org.apache.lucene.document.Field;
import org.apache.lucene.document.LongPoint;
import org.apache.lucene.document.NumericDocValuesField;
import org.apache.lucene.document.StringField;
import org.apache.lucene.document.TextField;
import org.apache.lucene.index.IndexWriter;
import org.apache.lucene.index.IndexWriterConfig;
import org.apache.lucene.index.NoMergePolicy;
import org.apache.lucene.index.Term;
import org.apache.lucene.store.ByteBuffersDirectory;
import org.apache.lucene.store.Directory;

public class LuceneWriting {
    private static final int SEGMENTS = 16;

    private static Document document(String line) {
        String[] parts = line.split("\t");
        Document document = new Document();
        document.add(new TextField("body", parts[0], Field.Store.YES));
        document.add(new StringField("tag", parts[1], Field.Store.YES));
        document.add(new LongPoint("n", Long.parseLong(parts[2])));
        document.add(new NumericDocValuesField("n", Long.parseLong(parts[2])));
        return document;
    }

    private static IndexWriterConfig config() {
        return new IndexWriterConfig(new WhitespaceAnalyzer()).setRAMBufferSizeMB(512);
    }

    private static void commits(List<String> lines) throws java.io.IOException {
        try (var writer = new IndexWriter(new ByteBuffersDirectory(), config())) {
            for (String line : lines) {
                long from = System.nanoTime();
                writer.addDocument(document(line));
                writer.commit();
                System.out.println(System.nanoTime() - from);
            }
        }
    }

    private static long build(Directory directory, List<String> lines) throws java.io.IOException {
        long from = System.nanoTime();
        try (var writer = new IndexWriter(directory, config().setMergePolicy(NoMergePolicy.INSTANCE))) {
            int run = (lines.size() + SEGMENTS - 1) / SEGMENTS;
            for (int at = 0; at < lines.size(); at++) {
                writer.addDocument(document(lines.get(at)));
                if ((at + 1) % run == 0) {
                    writer.commit();
                }
            }
            writer.commit();
        }
        return System.nanoTime() - from;
    }

    private static void merges(List<String> lines, boolean strikes) throws java.io.IOException {
        var directory = new ByteBuffersDirectory();
        System.out.println(build(directory, lines));
        long from = System.nanoTime();
        if (strikes) {
            try (var writer = new IndexWriter(directory, config().setMergePolicy(NoMergePolicy.INSTANCE))) {
                writer.deleteDocuments(new Term("tag", "t3"));
                writer.commit();
            }
        }
        System.out.println(System.nanoTime() - from);
        from = System.nanoTime();
        try (var writer = new IndexWriter(directory, config())) {
            writer.forceMerge(1);
            writer.commit();
        }
        System.out.println(System.nanoTime() - from);
    }

    public static void main(String[] arguments) throws Exception {
        List<String> lines = new ArrayList<>();
        BufferedReader in = new BufferedReader(new InputStreamReader(System.in));
        for (String line = in.readLine(); line != null; line = in.readLine()) {
            lines.add(line);
        }
        List<String> some = lines.subList(0, Integer.parseInt(arguments[1]));
        // The code is compiled as it runs, so all of it runs once before.
        var out = System.out;
        System.setOut(new java.io.PrintStream(java.io.OutputStream.nullOutputStream()));
        merges(some, true);
        System.setOut(out);
        commits(lines.subList(0, Integer.parseInt(arguments[0])));
        merges(some, false);
        merges(some, true);
    }
}
