// A plain program of the same packets, to time bats beside: it reads and writes what docs/FORMATS.md says, checks little, and
// proves nothing. For `source` and `sink` alone.
//
//   plain source M T SEED BATCHES TABLE SYSTEMATIC < FILE > PACKETS
//   plain sink < PACKETS > FILE
#include <algorithm>
#include <cstdint>
#include <cstdio>
#include <cstdlib>
#include <cstring>
#include <map>
#include <string>
#include <vector>

using Bytes = std::vector<uint8_t>;

static uint8_t products[256][256];
static uint8_t inverses[256];

static uint8_t times(unsigned a, unsigned b) {
    unsigned product = 0;
    for (; b; b >>= 1, a = a << 1 ^ (a & 0x80 ? 0x11d : 0)) {
        if (b & 1) product ^= a;
    }
    return product;
}

static void make_tables() {
    for (unsigned a = 0; a < 256; a++) {
        for (unsigned b = 0; b < 256; b++) {
            products[a][b] = times(a, b);
            if (products[a][b] == 1) inverses[a] = b;
        }
    }
}

static void add_scaled(uint8_t *row, const uint8_t *other, uint8_t factor, size_t size) {
    if (factor == 0) return;
    if (factor == 1) {
        for (size_t i = 0; i < size; i++) row[i] ^= other[i];
        return;
    }
    const uint8_t *by = products[factor];
    for (size_t i = 0; i < size; i++) row[i] ^= by[other[i]];
}

static void scale(uint8_t *row, uint8_t factor, size_t size) {
    for (size_t i = 0; i < size; i++) row[i] = products[factor][row[i]];
}

// The words of a key: ChaCha20's blocks, from number 0 on.
struct Words {
    uint32_t key[8];
    Bytes known;
    uint32_t blocks = 0;

    Words(const uint8_t *seed, uint32_t first, uint8_t kind, uint32_t second) {
        uint8_t bytes[32] = {};
        memcpy(bytes, seed, 16);
        for (int i = 0; i < 4; i++) bytes[16 + i] = first >> (24 - 8 * i), bytes[21 + i] = second >> (24 - 8 * i);
        bytes[20] = kind;
        memcpy(key, bytes, 32);
    }

    void block() {
        uint32_t start[16] = {0x61707865, 0x3320646e, 0x79622d32, 0x6b206574}, state[16];
        memcpy(start + 4, key, 32);
        start[12] = blocks++;
        start[13] = start[14] = start[15] = 0;
        memcpy(state, start, 64);
        auto turn = [](uint32_t x, int by) { return x << by | x >> (32 - by); };
        auto quarter = [&](int a, int b, int c, int d) {
            state[a] += state[b], state[d] = turn(state[d] ^ state[a], 16);
            state[c] += state[d], state[b] = turn(state[b] ^ state[c], 12);
            state[a] += state[b], state[d] = turn(state[d] ^ state[a], 8);
            state[c] += state[d], state[b] = turn(state[b] ^ state[c], 7);
        };
        for (int round = 0; round < 10; round++) {
            for (int i = 0; i < 4; i++) quarter(i, 4 + i, 8 + i, 12 + i);
            for (int i = 0; i < 4; i++) quarter(i, 4 + (i + 1) % 4, 8 + (i + 2) % 4, 12 + (i + 3) % 4);
        }
        for (int i = 0; i < 16; i++) state[i] += start[i];
        const uint8_t *bytes = reinterpret_cast<const uint8_t *>(state);
        known.insert(known.end(), bytes, bytes + 64);
    }

    const uint8_t *bytes_at(size_t start, size_t size) {
        while (known.size() < start + size) block();
        return known.data() + start;
    }

    uint32_t pick(size_t place, uint32_t below) {
        uint32_t word;
        memcpy(&word, bytes_at(4 * place, 4), 4);
        return uint64_t(word) * below >> 32;
    }
};

static const int TABLES[2][8][2] = {
    {{12, 100}, {16, 250}, {20, 200}, {26, 150}, {36, 120}, {52, 90}, {80, 60}, {128, 30}},
    {{1, 20}, {2, 480}, {3, 170}, {4, 90}, {6, 80}, {10, 70}, {20, 50}, {40, 40}},
};

struct Session {
    uint32_t m, t, table, symbols;
    bool systematic;
    uint64_t length;
    uint8_t seed[16];

    static Session of(const uint8_t *header) {
        Session session;
        session.m = header[4], session.table = header[5] & 127, session.systematic = header[5] >= 128;
        session.t = header[6] << 8 | header[7];
        session.length = 0;
        for (int i = 8; i < 16; i++) session.length = session.length << 8 | header[i];
        session.symbols = (session.length + session.t - 1) / session.t;
        memcpy(session.seed, header + 16, 16);
        return session;
    }
};

// Contributors, and a row of M factors for each.
struct Batch {
    std::vector<uint32_t> contributors;
    Bytes rows;
};

static Batch batch_of(const Session &session, uint32_t number) {
    Batch batch;
    uint64_t first = uint64_t(number) * session.m;
    if (session.systematic && first < session.symbols) {
        uint32_t degree = std::min<uint64_t>(session.m, session.symbols - first);
        batch.rows.assign(size_t(degree) * session.m, 0);
        for (uint32_t k = 0; k < degree; k++) {
            batch.contributors.push_back(first + k);
            batch.rows[k * session.m + k] = 1;
        }
        return batch;
    }
    Words words(session.seed, number, 0, 0);
    uint32_t drawn = words.pick(0, 1000), degree = 0;
    for (auto &row : TABLES[session.table]) {
        degree = row[0];
        if (drawn < uint32_t(row[1])) break;
        drawn -= row[1];
    }
    degree = std::min(degree, session.symbols);
    std::vector<uint32_t> chosen;
    for (uint32_t i = 0; i < degree; i++) {
        uint32_t symbol = words.pick(1 + i, session.symbols - i);
        for (uint32_t other : chosen) symbol += other <= symbol;
        chosen.insert(std::lower_bound(chosen.begin(), chosen.end(), symbol), symbol);
        batch.contributors.push_back(symbol);
    }
    const uint8_t *entries = words.bytes_at(4 * (1 + degree), degree * session.m);
    batch.rows.assign(entries, entries + degree * session.m);
    return batch;
}

static Bytes read_all() {
    Bytes bytes(1 << 20);
    size_t size = 0, got;
    while ((got = fread(bytes.data() + size, 1, bytes.size() - size, stdin)) > 0) {
        size += got;
        if (size == bytes.size()) bytes.resize(2 * size);
    }
    bytes.resize(size);
    return bytes;
}

static void source(char **words) {
    uint8_t header[32] = {'B', 'T', 'S', 1};
    uint32_t m = atoi(words[0]), t = atoi(words[1]), batches = atoi(words[3]);
    Bytes file = read_all();
    header[4] = m, header[5] = atoi(words[4]) + 128 * atoi(words[5]), header[6] = t >> 8, header[7] = t;
    for (int i = 0; i < 8; i++) header[8 + i] = uint64_t(file.size()) >> (56 - 8 * i);
    for (int i = 0; i < 16; i++) header[16 + i] = std::stoi(std::string(words[2] + 2 * i, 2), nullptr, 16);
    Session session = Session::of(header);
    file.resize(size_t(session.symbols) * t);
    fwrite(header, 1, 32, stdout);
    Bytes record(5 + m + t);
    for (uint32_t number = 0; number < batches; number++) {
        Batch batch = batch_of(session, number);
        for (uint32_t j = 0; j < m; j++) {
            std::fill(record.begin(), record.end(), 0);
            record[0] = 'P';
            for (int i = 0; i < 4; i++) record[1 + i] = number >> (24 - 8 * i);
            record[5 + j] = 1;
            for (size_t k = 0; k < batch.contributors.size(); k++) {
                add_scaled(&record[5 + m], &file[size_t(batch.contributors[k]) * t], batch.rows[k * m + j], t);
            }
            fwrite(record.data(), 1, record.size(), stdout);
        }
    }
}

// Rows that begin with their vector, in reduced form: row i has a 1 at `pivots[i]`, where the others have 0.
struct Basis {
    std::vector<Bytes> rows;
    std::vector<size_t> pivots;

    // Whether the row, of which `width` bytes are the vector, isn't a combination of those before. It is changed: where these are
    // as many as the vector has places, only behind the vector.
    bool offer(Bytes &row, size_t width) {
        size_t from = rows.size() == width ? width : 0;
        for (size_t i = 0; i < rows.size(); i++) {
            add_scaled(&row[from], &rows[i][from], row[pivots[i]], row.size() - from);
        }
        if (rows.size() == width) return false;
        size_t pivot = 0;
        while (pivot < width && row[pivot] == 0) pivot++;
        if (pivot == width) return false;
        scale(row.data(), inverses[row[pivot]], row.size());
        for (Bytes &other : rows) add_scaled(other.data(), row.data(), other[pivot], row.size());
        rows.push_back(row);
        pivots.push_back(pivot);
        return true;
    }
};

static int sink() {
    Bytes input = read_all();
    Session session = Session::of(input.data());
    size_t m = session.m, t = session.t, symbols = session.symbols;
    std::map<uint32_t, Basis> held;
    Bytes row(m + t);
    bool contradicts = false;
    for (size_t at = 32; at + 5 + m + t <= input.size();) {
        if (input[at] == 'B') {
            at += 32;
            continue;
        }
        uint32_t number = uint32_t(input[at + 1]) << 24 | input[at + 2] << 16 | input[at + 3] << 8 | input[at + 4];
        memcpy(row.data(), &input[at + 5], m + t);
        if (!held[number].offer(row, m)) {
            contradicts |= std::any_of(row.begin() + m, row.end(), [](uint8_t byte) { return byte != 0; });
        }
        at += 5 + m + t;
    }
    Bytes file(symbols * t);
    std::vector<bool> known(symbols);
    struct Local {
        Batch batch;
        Basis *basis;
        bool done;
    };
    std::vector<Local> locals;
    for (auto &[number, basis] : held) locals.push_back({batch_of(session, number), &basis, false});
    // A batch's rows over its unknown contributors, with payloads from which the known ones were taken.
    auto equations = [&](Local &local, std::vector<uint32_t> &unknown) {
        std::vector<Bytes> rows;
        unknown.clear();
        for (uint32_t symbol : local.batch.contributors) {
            if (!known[symbol]) unknown.push_back(symbol);
        }
        for (Bytes &kept : local.basis->rows) {
            Bytes equation(unknown.size() + t);
            memcpy(&equation[unknown.size()], &kept[m], t);
            size_t place = 0;
            for (size_t k = 0; k < local.batch.contributors.size(); k++) {
                uint8_t factor = 0;
                for (size_t j = 0; j < m; j++) factor ^= products[kept[j]][local.batch.rows[k * m + j]];
                uint32_t symbol = local.batch.contributors[k];
                if (known[symbol]) {
                    add_scaled(&equation[unknown.size()], &file[symbol * t], factor, t);
                } else {
                    equation[place++] = factor;
                }
            }
            rows.push_back(equation);
        }
        return rows;
    };
    auto settle = [&](Basis &basis, const std::vector<uint32_t> &unknown) {
        for (size_t i = 0; i < basis.rows.size(); i++) {
            memcpy(&file[size_t(unknown[basis.pivots[i]]) * t], &basis.rows[i][unknown.size()], t);
            known[unknown[basis.pivots[i]]] = true;
        }
    };
    std::vector<uint32_t> unknown;
    for (bool moved = true; moved;) {
        moved = false;
        for (Local &local : locals) {
            if (local.done) continue;
            size_t open = 0;
            for (uint32_t symbol : local.batch.contributors) open += !known[symbol];
            if (open > local.basis->rows.size()) continue;
            Basis basis;
            for (Bytes &equation : equations(local, unknown)) basis.offer(equation, unknown.size());
            if (basis.rows.size() < unknown.size()) continue;
            settle(basis, unknown);
            local.done = moved = true;
        }
    }
    // What is left goes by plain elimination over all symbols that are open.
    std::vector<uint32_t> open;
    std::vector<size_t> place(symbols);
    for (uint32_t symbol = 0; symbol < symbols; symbol++) {
        if (!known[symbol]) place[symbol] = open.size(), open.push_back(symbol);
    }
    if (!open.empty()) {
        Basis basis;
        for (Local &local : locals) {
            if (local.done) continue;
            for (Bytes &equation : equations(local, unknown)) {
                Bytes whole(open.size() + t);
                for (size_t k = 0; k < unknown.size(); k++) whole[place[unknown[k]]] = equation[k];
                memcpy(&whole[open.size()], &equation[unknown.size()], t);
                basis.offer(whole, open.size());
            }
        }
        if (basis.rows.size() < open.size()) return 1;
        settle(basis, open);
    }
    if (contradicts) return 2;
    fwrite(file.data(), 1, session.length, stdout);
    return 0;
}

int main(int count, char **words) {
    make_tables();
    if (count == 8 && !strcmp(words[1], "source")) {
        source(words + 2);
        return 0;
    }
    return count == 2 && !strcmp(words[1], "sink") ? sink() : 3;
}
