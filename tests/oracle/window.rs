
        /// Each node's sixteen numbers: first order, second order by columns, radius, centre.
        pub fn seen_data(&self) -> Vec<[f32; 16]> {
            let sixteen = |d: &NodeData| {
                let (first, second, centre) = (d.order1_coefficients, d.order2_coefficients, d.dipole_center);
                let mut all = [0.0; 16];
                for i in 0..3 {
                    all[i] = first[i];
                    (0..3).for_each(|j| all[3 + 3 * j + i] = second.at(i, j));
                    all[13 + i] = centre[i];
                }
                all[12] = d.radius;
                all
            };
            self.nodes_data.iter().map(sixteen).collect()
        }
