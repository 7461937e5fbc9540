// Closes one day of a small plant and prints its report: the session frees itself.
//
//     c++ -std=c++17 balance.cpp $(pkg-config --cflags --libs plantbal) && ./a.out
#include <plantbal.h>

#include <iostream>
#include <stdexcept>
#include <string>
#include <string_view>
#include <vector>

class Session {
public:
    explicit Session(plantbal_options options = PLANTBAL_OPTIONS) { expect(plantbal_session_new(&options, held)); }
    ~Session() { plantbal_session_free(held); }
    Session(const Session &) = delete;
    Session &operator=(const Session &) = delete;

    // The code of each record, in order.
    std::vector<unsigned char> rows(std::string_view text) {
        std::vector<unsigned char> codes(text.size() + 1);
        size_t taken = 0;
        expect(plantbal_session_rows(held, text.data(), text.size(), 0, codes.data(), codes.size(), &taken));
        codes.resize(taken);
        return codes;
    }

    // What the records have added to the output since the last call.
    std::string output() {
        size_t length = 0;
        std::string text(1, ' ');
        if (plantbal_session_output(held, text.data(), 0, &length) == PLANTBAL_SMALL_BUFFER) text.resize(length);
        expect(plantbal_session_output(held, text.data(), text.size(), &length));
        return text.substr(0, length);
    }

private:
    static void expect(int status) {
        if (status != PLANTBAL_DONE) throw std::runtime_error("plantbal: status " + std::to_string(status));
    }
    plantbal_session held = PLANTBAL_SESSION;
};

static const char day[] =
    "unit,CDU\n"
    "stream,CRUDE,env,CDU,metered,1000000000000\n"
    "stream,NAPHTHA,CDU,env,metered,10000000000\n"
    "stream,RESIDUE,CDU,env,metered,250000000000\n"
    "period,monday,2024-05-06,2024-05-06\n"
    "reading,crude-06,CRUDE,2024-05-06,9931400000,900000000000000\n"
    "reading,naphtha-06,NAPHTHA,2024-05-06,3113600000,31360000000000\n"
    "reading,residue-06,RESIDUE,2024-05-06,6741000000,187690000000000\n"
    "reading,residue-07,RESIDUE,2024-05-06,6741000000,187690000000000\n"
    "report,monday\n";

int main() {
    Session session;
    size_t at = 0;
    for (int code : session.rows(day))
        if (++at, code) std::cout << "record " << at << " is refused for cause " << code << "\n";
    std::cout << session.output();
}
