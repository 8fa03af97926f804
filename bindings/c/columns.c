/* The names of the columns of rows. Made by bindings/abi.sh --write of crates/nav_rows. */
#include "navbridge.h"

static const struct {
    uint32_t message;
    const char *names[NB_COLUMNS_MOST];
} rows[] = {
    {1020,
     {"tau", "gamma", "sent", "x", "x_velocity", "x_acceleration", "health", "y", "y_velocity", "y_acceleration",
      "frequency", "z", "z_velocity", "z_acceleration", "age", "status_flags", "delta_tau", "urai", "health_flags"}},
    {1041,
     {"af0", "af1", "af2", "iodec", "crs", "delta_n", "m0", "cuc", "e", "cus", "root_a", "toe", "cic", "omega0", "cis", "i0",
      "crc", "omega", "omega_dot", "idot", "spare", "toe_week", "spare", "ura", "health", "tgd", "spare", "sent"}},
    {1042,
     {"af0", "af1", "af2", "aode", "crs", "delta_n", "m0", "cuc", "e", "cus", "root_a", "toe", "cic", "omega0", "cis", "i0",
      "crc", "omega", "omega_dot", "idot", "spare", "toe_week", "spare", "ura", "health", "tgd1", "tgd2", "sent", "aodc"}},
    {1044,
     {"af0", "af1", "af2", "iode", "crs", "delta_n", "m0", "cuc", "e", "cus", "root_a", "toe", "cic", "omega0", "cis", "i0",
      "crc", "omega", "omega_dot", "idot", "l2_code", "toe_week", "l2p", "ura", "health", "tgd", "iodc", "sent", "fit"}},
    {1045,
     {"af0", "af1", "af2", "iodnav", "crs", "delta_n", "m0", "cuc", "e", "cus", "root_a", "toe", "cic", "omega0", "cis",
      "i0", "crc", "omega", "omega_dot", "idot", "sources", "toe_week", "sisa", "health", "bgd_a", "bgd_b", "sent"}},
};

const char *nb_row_name(const nb_row *row, uint32_t index) {
    size_t i;
    for (i = 0; i < sizeof rows / sizeof *rows; i++)
        if (rows[i].message == row->message && index < NB_COLUMNS_MOST && rows[i].names[index] != NULL) return rows[i].names[index];
    return "";
}
