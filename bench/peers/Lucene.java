// Lucene over one segment in memory, given documents and deletes as requests.h says, and searches as bench/searches.py writes them between
// tabs: a form, what is asked, and words or bounds. They are answered at an empty line, several times over, since Lucene's code is compiled
// while it runs, in threads of its own; the last line of the reply is the least nanoseconds of processor time that this thread took for them.
// bench/indexes.py builds and runs it.
//
//     java -cp lucene-core.jar:lucene-analyzers-common.jar Lucene.java ROUNDS SECONDS < LINES
import java.io.BufferedReader;
import java.io.InputStreamReader;
import java.lang.management.ManagementFactory;
import java.util.ArrayList;
import java.util.List;
import org.apache.lucene.analysis.core.WhitespaceAnalyzer;
import org.apache.lucene.document.Document;
import org.apache.lucene.document.Field;
import org.apache.lucene.document.LongPoint;
import org.apache.lucene.document.NumericDocValuesField;
import org.apache.lucene.document.SortedDocValuesField;
import org.apache.lucene.document.StringField;
import org.apache.lucene.document.TextField;
import org.apache.lucene.index.DirectoryReader;
import org.apache.lucene.index.IndexWriter;
import org.apache.lucene.index.IndexWriterConfig;
import org.apache.lucene.index.LeafReaderContext;
import org.apache.lucene.index.NoMergePolicy;
import org.apache.lucene.index.NumericDocValues;
import org.apache.lucene.index.SortedDocValues;
import org.apache.lucene.index.Term;
import org.apache.lucene.search.BooleanClause.Occur;
import org.apache.lucene.search.BooleanQuery;
import org.apache.lucene.search.FieldDoc;
import org.apache.lucene.search.IndexSearcher;
import org.apache.lucene.search.MatchAllDocsQuery;
import org.apache.lucene.search.PhraseQuery;
import org.apache.lucene.search.Query;
import org.apache.lucene.search.ScoreDoc;
import org.apache.lucene.search.ScoreMode;
import org.apache.lucene.search.SimpleCollector;
import org.apache.lucene.search.Sort;
import org.apache.lucene.search.SortField;
import org.apache.lucene.search.TermQuery;
import org.apache.lucene.search.TermRangeQuery;
import org.apache.lucene.search.TopFieldCollector;
import org.apache.lucene.search.TotalHitCountCollector;
import org.apache.lucene.store.ByteBuffersDirectory;
import org.apache.lucene.store.Directory;
import org.apache.lucene.util.BytesRef;

public class Lucene {
    private static final int LEAST_TEMP = -50;

    /** Counts hits by their value of a field of one segment. */
    private abstract static class Groups extends SimpleCollector {
        long[] counts;
        long total;

        @Override
        public ScoreMode scoreMode() {
            return ScoreMode.COMPLETE_NO_SCORES;
        }

        abstract String name(int place) throws java.io.IOException;

        void tell(StringBuilder out) throws java.io.IOException {
            out.append(total);
            for (int i = 0; i < counts.length; i++) {
                if (counts[i] > 0) {
                    out.append(' ').append(name(i)).append(':').append(counts[i]);
                }
            }
        }
    }

    /** Groups by `temp`, which is from -50 to 49. */
    private static final class Temps extends Groups {
        private NumericDocValues temps;

        @Override
        protected void doSetNextReader(LeafReaderContext context) throws java.io.IOException {
            temps = context.reader().getNumericDocValues("temp");
            counts = new long[100];
        }

        @Override
        public void collect(int doc) throws java.io.IOException {
            total++;
            if (temps.advanceExact(doc)) {
                counts[(int) temps.longValue() - LEAST_TEMP]++;
            }
        }

        @Override
        String name(int place) {
            return Integer.toString(place + LEAST_TEMP);
        }
    }

    private static final class Tags extends Groups {
        private SortedDocValues tags;

        @Override
        protected void doSetNextReader(LeafReaderContext context) throws java.io.IOException {
            tags = context.reader().getSortedDocValues("tag");
            counts = new long[tags.getValueCount()];
        }

        @Override
        public void collect(int doc) throws java.io.IOException {
            total++;
            if (tags.advanceExact(doc)) {
                counts[tags.ordValue()]++;
            }
        }

        @Override
        String name(int place) throws java.io.IOException {
            return tags.lookupOrd(place).utf8ToString();
        }
    }

    private static Document document(String line, int number) {
        String[] parts = line.split("\t");
        Document document = new Document();
        document.add(new TextField("body", parts[1], Field.Store.YES));
        document.add(new StringField("tag", parts[2], Field.Store.YES));
        document.add(new SortedDocValuesField("tag", new BytesRef(parts[2])));
        document.add(new LongPoint("price", Long.parseLong(parts[3])));
        document.add(new NumericDocValuesField("price", Long.parseLong(parts[3])));
        document.add(new NumericDocValuesField("temp", Long.parseLong(parts[4])));
        document.add(new StringField("number", Integer.toString(number), Field.Store.NO));
        return document;
    }

    private static Query query(String form, String[] words) {
        if (form.equals("range")) {
            return LongPoint.newRangeQuery("price", Long.parseLong(words[0]), Long.parseLong(words[1]));
        }
        if (form.equals("tag")) {
            return new TermQuery(new Term("tag", words[0]));
        }
        if (form.equals("tags")) {
            return TermRangeQuery.newStringRange("tag", words[0], words[1], true, true);
        }
        if (form.equals("every")) {
            return new MatchAllDocsQuery();
        }
        if (form.equals("phrase")) {
            return new PhraseQuery("body", words);
        }
        if (words.length == 1) {
            return new TermQuery(new Term("body", words[0]));
        }
        BooleanQuery.Builder all = new BooleanQuery.Builder();
        for (String word : words) {
            boolean without = word.startsWith("-");
            Term term = new Term("body", without ? word.substring(1) : word);
            all.add(new TermQuery(term), without ? Occur.MUST_NOT : form.equals("all") ? Occur.MUST : Occur.SHOULD);
        }
        return all.build();
    }

    private static int count(IndexSearcher searcher, Query query, boolean isShipped) throws java.io.IOException {
        if (isShipped) {
            return searcher.count(query);
        }
        TotalHitCountCollector count = new TotalHitCountCollector();
        searcher.search(query, count);
        return count.getTotalHits();
    }

    private static void answer(IndexSearcher searcher, String line, boolean isShipped, StringBuilder out) throws java.io.IOException {
        String[] parts = line.split("\t", -1);
        Query query = query(parts[0], parts[2].split(" "));
        String[] asked = parts[1].split(" ");
        if (asked[0].equals("count")) {
            out.append(count(searcher, query, isShipped));
        } else if (asked[0].equals("groups")) {
            Groups groups = asked[1].equals("temp") ? new Temps() : new Tags();
            searcher.search(query, groups);
            groups.tell(out);
        } else {
            Sort sort = new Sort(new SortField(asked[0], SortField.Type.LONG, asked[1].equals("falling")), SortField.FIELD_DOC);
            TopFieldCollector top = TopFieldCollector.create(sort, 10, Integer.MAX_VALUE);
            searcher.search(query, top);
            out.append(top.getTotalHits());
            for (ScoreDoc hit : top.topDocs().scoreDocs) {
                out.append(' ').append(((FieldDoc) hit).fields[0]).append('@').append(hit.doc);
            }
        }
        out.append('\n');
    }

    private static IndexWriterConfig config() {
        return new IndexWriterConfig(new WhitespaceAnalyzer()).setRAMBufferSizeMB(512);
    }

    /** What is there now. Unless Lucene is to be as it is shipped, each search is carried out, as each of `fts` is. */
    private static IndexSearcher searcher(Directory directory, boolean isShipped) throws java.io.IOException {
        IndexSearcher searcher = new IndexSearcher(DirectoryReader.open(directory));
        if (!isShipped) {
            searcher.setQueryCache(null);
        }
        return searcher;
    }

    /** Answers the searches and tells the least nanoseconds of processor time of several rounds, as many as `seconds` leave time for. */
    private static void ask(IndexSearcher searcher, List<String> searches, boolean isShipped, int rounds, double seconds)
            throws java.io.IOException {
        var threads = ManagementFactory.getThreadMXBean();
        long least = Long.MAX_VALUE;
        long all = 0;
        StringBuilder out = new StringBuilder();
        for (int round = 0; round < rounds && all < seconds * 1e9; round++) {
            out.setLength(0);
            long from = threads.getCurrentThreadCpuTime();
            for (String search : searches) {
                answer(searcher, search, isShipped, out);
            }
            long took = threads.getCurrentThreadCpuTime() - from;
            least = Math.min(least, took);
            all += took;
        }
        System.out.print(out);
        System.out.println(least);
        System.out.flush();
    }

    public static void main(String[] arguments) throws Exception {
        int rounds = Integer.parseInt(arguments[0]);
        double seconds = Double.parseDouble(arguments[1]);
        boolean isShipped = arguments[2].equals("shipped");
        var directory = new ByteBuffersDirectory();
        var writer = new IndexWriter(directory, config());
        IndexSearcher searcher = null;
        boolean isMerged = false;
        int count = 0;
        List<String> searches = new ArrayList<>();
        BufferedReader in = new BufferedReader(new InputStreamReader(System.in));
        for (String line = in.readLine(); line != null; line = in.readLine()) {
            if (line.startsWith("add\t")) {
                writer.addDocument(document(line, count++));
            } else if (line.startsWith("delete\t")) {
                if (writer == null) {
                    writer = new IndexWriter(directory, config().setMergePolicy(NoMergePolicy.INSTANCE));
                }
                writer.deleteDocuments(new Term("number", line.substring(7)));
            } else if (!line.isEmpty()) {
                searches.add(line);
            } else {
                if (writer != null) {
                    if (!isMerged) {
                        writer.forceMerge(1);
                        isMerged = true;
                    }
                    writer.close();
                    writer = null;
                    searcher = searcher(directory, isShipped);
                }
                ask(searcher, searches, isShipped, rounds, seconds);
                searches.clear();
            }
        }
    }
}
