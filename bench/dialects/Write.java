import java.io.BufferedReader;
import java.io.InputStreamReader;
import java.time.ZoneOffset;
import java.time.ZonedDateTime;
import java.time.format.DateTimeFormatter;
import java.util.Locale;

/** Writes the moment of each line by its pattern: a pattern, a tab and the fields of a moment. */
public class Write {
    public static void main(String[] words) throws Exception {
        var lines = new BufferedReader(new InputStreamReader(System.in));
        var out = new StringBuilder();
        for (var line = lines.readLine(); line != null; line = lines.readLine()) {
            var cut = line.lastIndexOf('\t');
            var fields = new int[8];
            var parts = line.substring(cut + 1).split(" ");
            for (var at = 0; at < 8; at++) {
                fields[at] = Integer.parseInt(parts[at]);
            }
            var moment = ZonedDateTime.of(fields[0], fields[1], fields[2], fields[3], fields[4], fields[5], fields[6] * 1000,
                    ZoneOffset.ofTotalSeconds(fields[7]));
            out.append(DateTimeFormatter.ofPattern(line.substring(0, cut), Locale.ENGLISH).format(moment)).append('\n');
        }
        System.out.print(out);
    }
}
