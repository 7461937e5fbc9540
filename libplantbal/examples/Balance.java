// Closes one day of a small plant and prints its report, by JNA.
//
//     javac -cp jna.jar Balance.java && java -cp jna.jar:. Balance
import com.sun.jna.Library;
import com.sun.jna.Memory;
import com.sun.jna.Native;
import com.sun.jna.ptr.LongByReference;
import java.nio.charset.StandardCharsets;

public class Balance {
    public interface Plantbal extends Library {
        Plantbal LIBRARY = Native.load("libplantbal.so.0", Plantbal.class);

        byte plantbal_run(int[] options, byte[] input, long inputLength, Memory session);
        byte plantbal_session_output(Memory session, byte[] buffer, long length, LongByReference count);
        void plantbal_session_free(Memory session);
    }

    static String run(String text) {
        byte[] input = text.getBytes(StandardCharsets.US_ASCII);
        Memory session = new Memory(16);  // two words, which hold nothing yet
        session.clear();
        int status = Plantbal.LIBRARY.plantbal_run(new int[] {10, 5000, 0, 0, 0}, input, input.length, session);
        if (status > 1) throw new IllegalStateException("plantbal: status " + status);
        LongByReference count = new LongByReference();
        Plantbal.LIBRARY.plantbal_session_output(session, new byte[1], 0, count);
        byte[] output = new byte[(int) count.getValue()];
        Plantbal.LIBRARY.plantbal_session_output(session, output, output.length, count);
        Plantbal.LIBRARY.plantbal_session_free(session);
        return new String(output, StandardCharsets.US_ASCII);
    }

    public static void main(String[] words) {
        System.out.print(run(""
                + "unit,CDU\n"
                + "stream,CRUDE,env,CDU,metered,1000000000000\n"
                + "stream,NAPHTHA,CDU,env,metered,10000000000\n"
                + "stream,RESIDUE,CDU,env,metered,250000000000\n"
                + "period,monday,2024-05-06,2024-05-06\n"
                + "reading,crude-06,CRUDE,2024-05-06,9931400000,900000000000000\n"
                + "reading,naphtha-06,NAPHTHA,2024-05-06,3113600000,31360000000000\n"
                + "reading,residue-06,RESIDUE,2024-05-06,6741000000,187690000000000\n"
                + "reading,residue-07,RESIDUE,2024-05-06,6741000000,187690000000000\n"
                + "report,monday\n"));
    }
}
