// Prints the expected signal strength of each receiver record of a stream, which is a signed number, and its station: in C++, over std::vector.
#include <hernganow.h>

#include <array>
#include <fstream>
#include <iostream>
#include <iterator>
#include <vector>

int main(int count, char **words)
{
    std::ifstream file(count == 2 ? words[1] : "", std::ios::binary);
    if (!file) {
        std::cerr << "usage: expected STREAM\n";
        return 2;
    }
    const std::vector<char> bytes{std::istreambuf_iterator<char>(file), std::istreambuf_iterator<char>()};
    const auto *stream = reinterpret_cast<const uint8_t *>(bytes.data());
    std::array<uint8_t, HERNGANOW_ANSWER> answer{};
    const auto number = [&](int at) { return hernganow_number(answer.data(), at); };

    for (std::size_t place = 0; place < bytes.size(); place += number(HERNGANOW_AT_SIZE)) {
        if (hernganow_read_one(stream + place, bytes.size() - place, answer.data(), answer.size()))
            return 1;
        if (number(HERNGANOW_AT_KIND) != 2)
            continue;
        if (hernganow_read_headers(stream + place, bytes.size() - place, 2, answer.data(), answer.size()))
            return 1;
        std::cout << hernganow_signed_number(answer.data(), HERNGANOW_AT_RSR_EXPECTED) << ' ' << number(HERNGANOW_AT_RSR_STATION) << '\n';
    }
}
