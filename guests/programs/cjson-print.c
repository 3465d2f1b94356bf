/* Reads a file of JSON by cJSON, and prints it in the layout of jq: its own tabs become two blanks.
 */
#include <stdio.h>
#include <stdlib.h>
#include "cJSON.h"

static void print(const cJSON *item, int depth) {
    if (!cJSON_IsArray(item) && !cJSON_IsObject(item)) {
        char *text = cJSON_PrintUnformatted(item);
        printf("%s", text);
        free(text);
        return;
    }
    putchar(cJSON_IsArray(item) ? '[' : '{');
    for (const cJSON *child = item->child; child; child = child->next) {
        printf("%s\n%*s", child == item->child ? "" : ",", 2 * depth + 2, "");
        if (child->string) printf("\"%s\": ", child->string);
        print(child, depth + 1);
    }
    printf("\n%*s%c", 2 * depth, "", cJSON_IsArray(item) ? ']' : '}');
}

int main(int count, char **words) {
    static char text[1 << 20];
    FILE *file = fopen(words[1], "r");
    if (!file) return 1;
    text[fread(text, 1, sizeof text - 1, file)] = 0;
    cJSON *item = cJSON_Parse(text);
    print(item, 0);
    putchar('\n');
    return 0;
}
