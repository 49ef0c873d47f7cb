// java.text.Bidi: rows of texts, as rows.h says, without classes. `--version` prints which JDK it is.
import java.io.BufferedReader;
import java.io.InputStreamReader;
import java.io.PrintStream;
import java.nio.charset.StandardCharsets;
import java.text.Bidi;
import java.util.Arrays;
import java.util.StringJoiner;

public class Jdk {
    static final int[] DIRECTIONS = {
        Bidi.DIRECTION_LEFT_TO_RIGHT, Bidi.DIRECTION_RIGHT_TO_LEFT, Bidi.DIRECTION_DEFAULT_LEFT_TO_RIGHT
    };

    /** The row's last three fields; a line of the text is a part of it. */
    static String layOut(int[][] lines, int direction) {
        StringBuilder text = new StringBuilder();
        for (int[] line : lines) text.append(new String(line, 0, line.length));
        char[] units = text.toString().toCharArray();
        Bidi bidi = new Bidi(units, 0, null, 0, units.length, DIRECTIONS[direction]);
        StringJoiner levels = new StringJoiner(" | "), orders = new StringJoiner(" | ");
        int before = 0, start = 0;
        for (int[] line : lines) {
            int length = new String(line, 0, line.length).length();
            Bidi laidOut = lines.length == 1 ? bidi : bidi.createLineBidi(start, start + length);
            addLine(laidOut, line, before, levels, orders);
            before += line.length;
            start += length;
        }
        return bidi.getBaseLevel() + ";" + levels + ";" + orders;
    }

    /** Adds the levels and the order of a line, before which there are so many characters. */
    static void addLine(Bidi bidi, int[] line, int before, StringJoiner levels, StringJoiner orders) {
        byte[] found = new byte[line.length];
        Integer[] order = new Integer[line.length];
        int unit = 0;
        for (int i = 0; i < line.length; i++) {
            found[i] = (byte) bidi.getLevelAt(unit);
            order[i] = before + i;
            unit += Character.charCount(line[i]);
        }
        StringJoiner shown = new StringJoiner(" "), places = new StringJoiner(" ");
        for (byte level : found) shown.add(String.valueOf(level));
        Bidi.reorderVisually(found, 0, order, 0, line.length);
        for (int at : order) places.add(String.valueOf(at));
        levels.add(shown.toString());
        orders.add(places.toString());
    }

    /** The code points of a line. */
    static int[] codesOf(String line) {
        return Arrays.stream(line.trim().split(" +")).mapToInt(item -> Integer.parseInt(item, 16)).toArray();
    }

    public static void main(String[] words) throws Exception {
        if (words.length == 1 && words[0].equals("--version")) {
            System.out.println("java.text.Bidi of JDK " + System.getProperty("java.version"));
            return;
        }
        PrintStream out = new PrintStream(System.out, false, StandardCharsets.US_ASCII);
        BufferedReader in = new BufferedReader(new InputStreamReader(System.in, StandardCharsets.US_ASCII));
        for (String line = in.readLine(); line != null; line = in.readLine()) {
            if (line.isEmpty() || line.startsWith("#")) continue;
            String[] fields = line.split(";");
            int[][] lines = Arrays.stream(fields[0].split("\\|")).map(Jdk::codesOf).toArray(int[][]::new);
            String made;
            try {
                made = layOut(lines, fields[1].charAt(0) - '0');
            } catch (RuntimeException rejected) {
                made = "failed";
            }
            out.println(fields[0] + ";" + fields[1].charAt(0) + ";" + made);
        }
        out.flush();
    }
}
