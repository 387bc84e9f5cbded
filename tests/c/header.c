/* The header alone, as C and as C++: included twice, sizes, the texts, a call that links. */
#include <pivatsohy.h>
#include <pivatsohy.h>

#define COUNT(number, text) + 1
#define IN_ORDER(number, text) && number == ++n

int main(void)
{
    int n = 0;
    const float one[1] = {1};
    double distances[4];
    uint32_t number = pv_distance_four(PV_INNER_PRODUCT, one, 1, one, 1, one, 1, one, 1, one, 1, distances);
    int sizes = sizeof(pv_head) == 600 && sizeof(pv_cache_state) == 608 && sizeof(pv_resident_state) == 624 && sizeof(pv_info) == 40
             && sizeof(pv_report) == 56 && sizeof(pv_record) == 24 && sizeof(size_t) == 8;
    int texts = (0 PV_REFUSALS(COUNT)) == 24 && (1 PV_REFUSALS(IN_ORDER)) && pv_refusal_text(24) != pv_refusal_text(25);
    return number == 0 && distances[3] <= -1 && sizes && texts ? 0 : 1;
}
