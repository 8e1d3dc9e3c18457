#include <both.h>

void archive();

int main(int, char **words) {
    nanolog::Session log("consumer.log", words[1]);
    archive();
    both("the consumer");
}
