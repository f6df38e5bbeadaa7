// The header is C++ too, and the library's functions are found under their C names.
#include "belikumba.h"

int main() {
    belikumba_planned planned = belikumba_plan(4, 16, 0, 0, 0, 0);
    belikumba_planned counted = belikumba_count(4, 16, 4088, 16);
    const uint32_t windows[] = {1028, 0, 1008, 28};
    belikumba_judged judged = belikumba_judge(32768, windows, 4, 1024, 16);
    bool refused = planned.answer == BELIKUMBA_PLAN_RANGE && planned.bursts == 0;
    bool sick = judged.answer == BELIKUMBA_DONE && judged.verdict == BELIKUMBA_SLAVE_ERROR;
    bool named = judged.place == 1024 && judged.window == 1;
    return refused && sick && named && counted.answer == BELIKUMBA_DONE && counted.bursts == 2 ? 0 : 1;
}
