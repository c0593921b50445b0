module ipcz_portals

go 1.19
