/* Hammurabi: ten years as the ruler of a city that lives on grain. */
#include "talk.h"

#define YEARS 10
#define PEOPLE_FOOD 20
#define ACRES_BY_ONE 10
#define LINE 20

/* The city, and what the last year brought. Grain is in bushels. */
static struct city {
    int32 people, acres, grain;
    int32 starved, came, harvest, by_acre, eaten_by_rats;
    int16 had_plague;
} city;
static int32 starved_in_all, land_price;
static int16 year, is_left;

static void rules(void) {
    text("HAMMURABI\n\n"
         "You rule ancient Sumer for ten years. Each year you buy or sell land, feed your\n"
         "people, and sow. One acre costs 17 to 26 bushels of grain, as the year is. One\n"
         "person eats 20 bushels a year, and can sow 10 acres; an acre takes half a bushel\n"
         "of seed and gives 1 to 5 bushels. Rats eat of what is stored, people come and\n"
         "go, and now and then there is a plague. Who isn't fed starves; if you let more\n"
         "than 45 of 100 starve in one year, you are driven out. In the end you are judged\n"
         "by how many starved, and by how many acres each person has.\n\n"
         "Answer each question by a number. Ctrl-C ends the game. Press a key: each key\n"
         "begins another game.");
}

/* A number from 1 to N. */
static int16 any(int16 n) {
    return (int16)(random_number() % n + 1);
}

static void begin(void) {
    city.people = 100;
    city.acres = 1000;
    city.grain = 2800;
    city.harvest = 3000;
    city.by_acre = 3;
    city.eaten_by_rats = 200;
    city.came = 5;
}

static void counted(int32 n, const char *what) {
    number(n);
    text(what);
}

static void report(void) {
    text("\n\nYear ");
    counted(year, ". ");
    counted(city.starved, " people starved, ");
    counted(city.came, " came to the city.\n");
    if (city.had_plague) text("A plague took half of the people.\n");
    text("The city has ");
    counted(city.people, " people and ");
    counted(city.acres, " acres.\n");
    text("You harvested ");
    counted(city.by_acre, " bushels an acre. Rats ate ");
    counted(city.eaten_by_rats, " bushels; ");
    counted(city.grain, " are in store.\n");
    text("Land costs ");
    counted(land_price, " bushels an acre.\n");
}

/* Asks for a number from 0 to MOST; 0 after Ctrl-C, which ends the game. WHAT says why more isn't possible. */
static int32 asked(const char *question, int32 most, const char *what) {
    char line[LINE];
    for (;;) {
        const char *at = line;
        int16 length;
        int32 n = 0;
        text(question);
        length = read_line(line, LINE);
        if (length < 0) {
            is_left = 1;
            return 0;
        }
        while (*at >= '0' && *at <= '9' && n <= 99999999) n = n * 10 + (*at++ - '0');
        if (!length || *at) {
            text("A number, please, as 0 or 200.\n");
        } else if (n > most) {
            text(what);
            counted(most, " at most.\n");
        } else {
            return n;
        }
    }
}

static void trade(void) {
    int32 acres = asked("How many acres do you buy? ", city.grain / land_price, "Your grain buys ");
    if (!acres && !is_left) acres = -asked("How many acres do you sell? ", city.acres, "You own ");
    city.acres += acres;
    city.grain -= acres * land_price;
}

/* Feeds and sows; who gets nothing is in `starved`. */
static void feed_and_sow(void) {
    int32 food, sown, most;
    if (is_left) return;
    food = asked("How many bushels do you feed to your people? ", city.grain, "In store are ");
    if (is_left) return;
    city.grain -= food;
    city.starved = city.people - food / PEOPLE_FOOD;
    if (city.starved < 0) city.starved = 0;
    most = city.acres;
    if (most > city.people * ACRES_BY_ONE) most = city.people * ACRES_BY_ONE;
    if (most > city.grain * 2) most = city.grain * 2;
    sown = asked("How many acres do you sow? ", most, "Land, people and seed are enough for ");
    if (is_left) return;
    city.grain -= (sown + 1) / 2;
    city.by_acre = any(5);
    city.harvest = sown * city.by_acre;
}

/* What the year brings after the harvest. */
static void pass_year(void) {
    int16 rats = any(5);
    city.eaten_by_rats = rats < 3 ? city.grain / (rats + 1) / 2 : 0;
    city.grain += city.harvest - city.eaten_by_rats;
    city.came = any(5) * (20 * city.acres + city.grain) / city.people / 100 + 1;
    starved_in_all += city.starved;
    city.had_plague = any(20) < 4;
    city.people += city.came - city.starved;
    if (city.had_plague) city.people -= city.people / 2;
}

/* Whether so many starved that the game is over. */
static int16 is_driven_out(int32 people) {
    if (city.starved * 100 <= people * 45) return 0;
    put('\n');
    counted(city.starved, " people starved in one year. The others drive you out of the city.\n");
    return 1;
}

static void judge(void) {
    int32 acres = city.acres / city.people;
    text("\n\nYour ten years are over. ");
    counted(starved_in_all, " people starved in them. You began with\n10 acres for each person, and end with ");
    counted(acres, ".\n");
    if (starved_in_all > 300 || acres < 7) text("They will tell their children of you, in order to frighten them.\n");
    else if (starved_in_all > 100 || acres < 9) text("You ruled with a heavy hand. Few will miss you.\n");
    else if (starved_in_all > 30 || acres < 10) text("It could have been better, and it could have been much worse.\n");
    else text("A golden age! No ruler of Sumer did better.\n");
}

static void play(void) {
    begin();
    for (year = 1; year <= YEARS; year++) {
        int32 people = city.people;
        land_price = 16 + any(10);
        report();
        trade();
        feed_and_sow();
        if (is_left) return;
        if (is_driven_out(people)) return;
        pass_year();
    }
    report();
    judge();
}

int main(void) {
    rules();
    next_key();
    random_begin(keys_mixed());
    play();
    text("\nPress a key.");
    next_key();
    return 0;
}
