// Prints the texts that FontBox gives for the codes of ToUnicode streams: for each stream a line, as JSON.
//
//     java -cp fontbox2.jar:commons-logging.jar FontBox.java CODES STREAM..
//
// CODES are hexadecimal, with commas between them. The texts stand in their order; null is a code without a text.

import java.io.FileInputStream;
import java.io.IOException;
import java.io.InputStream;
import java.util.stream.Collectors;
import java.util.stream.IntStream;
import java.util.stream.Stream;
import org.apache.fontbox.cmap.CMap;
import org.apache.fontbox.cmap.CMapParser;

class FontBox {
    public static void main(String[] words) {
        int[] codes = Stream.of(words[0].split(",")).mapToInt(code -> Integer.parseInt(code, 16)).toArray();
        for (int at = 1; at < words.length; at++) {
            System.out.println(textsOf(words[at], codes));
        }
    }

    static String textsOf(String path, int[] codes) {
        CMap map = mapOf(path);
        return IntStream.of(codes)
                .mapToObj(code -> map == null ? "null" : quoted(map.toUnicode(code)))
                .collect(Collectors.joining(",", "[", "]"));
    }

    // Null for a stream that FontBox refuses.
    static CMap mapOf(String path) {
        try (InputStream stream = new FileInputStream(path)) {
            return new CMapParser().parse(stream);
        } catch (IOException | RuntimeException refused) {
            return null;
        }
    }

    static String quoted(String text) {
        if (text == null) {
            return "null";
        }
        return text.chars().mapToObj(unit -> String.format("\\u%04x", unit)).collect(Collectors.joining("", "\"", "\""));
    }
}
