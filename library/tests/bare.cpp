// A program without exceptions, which a value that isn't there ends: its last words are the error's text.
#include <callauction.hpp>

int main() {
    static_cast<void>(callauction::Auction::open({0, 0, 0}).value());
    return 0;
}
