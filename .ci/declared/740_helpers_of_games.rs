//! Attributes of derives that games, services and bindings of other languages have.
use bevy::prelude::{Component, Reflect, ReflectComponent, Transform};
use serde::{Deserialize, Serialize};

#[derive(Component, Reflect, Serialize, Deserialize, Clone, Copy, PartialEq)]
#[reflect(Component, Serialize, Deserialize)]
#[require(Transform)]
#[component(storage = "SparseSet")]
pub struct Health {
    pub current: f32,
    #[reflect(ignore)]
    pub most: f32,
}

#[cfg_attr(feature = "python", pyo3::pyclass(get_all))]
#[cfg_attr(feature = "web", wasm_bindgen)]
#[derive(Serialize, Deserialize)]
pub struct Waypoint {
    pub latitude: i32,
    pub longitude: i32,
}

#[derive(Serialize, Deserialize, sqlx::Type, diesel::Queryable)]
#[sqlx(type_name = "mode")]
#[diesel(table_name = modes)]
#[cfg_attr(feature = "openapi", derive(utoipa::IntoParams), into_params(names("mode")))]
pub enum Mode {
    Manual,
    Auto(u8),
}
